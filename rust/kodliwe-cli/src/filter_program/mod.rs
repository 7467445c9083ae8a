// Made from crates/filter_program/src/lib.rt by packaging/crate/erase.py: edit that file instead.
//! What the program `demangle_filter` does, over any streams.
pub mod filter;
pub mod flushing;
