// Made from crates/test_doubles/src/lib.rt by packaging/crate/erase.py: edit that file instead.
//! Test doubles: readers and writers in memory that fail on demand or record their calls, and a
//! sink that rejects a piece.
mod refusing_sink;
pub mod streams;

pub use refusing_sink::RefusingSink;
