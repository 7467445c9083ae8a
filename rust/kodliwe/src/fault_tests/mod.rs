// Made from crates/fault_tests/src/lib.rt by packaging/crate/erase.py: edit that file instead.
//! Tests of the calls that write a text with its symbols replaced, with readers, writers and heaps
//! that fail.
#[cfg(test)]
mod tests;
