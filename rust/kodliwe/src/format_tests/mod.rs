// Made from crates/format_tests/src/lib.rt by packaging/crate/erase.py: edit that file instead.
//! Tests of the calls that write a text with its symbols replaced, in each format and for symbols
//! that repeat.
#[cfg(test)]
mod tests;
