// Made from crates/filter_tests/src/tests.rt by packaging/crate/erase.py: edit that file instead.
//! Tests of the calls that write a text with its symbols replaced.

mod bytes;
mod bytes_before;
mod stream;
mod texts;
