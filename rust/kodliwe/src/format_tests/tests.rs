// Made from crates/format_tests/src/tests.rt by packaging/crate/erase.py: edit that file instead.
//! Tests of formats, of symbols that repeat, and of the memo that stores their texts.

mod formats;
mod memo;
mod repeats;
mod slices;
