// Made from crates/filter_tests/src/lib.rt by packaging/crate/erase.py: edit that file instead.
//! Tests of the calls that write a text with its symbols replaced: into memory, to a sink, and from
//! a reader to a writer.
#[cfg(test)]
mod tests;
