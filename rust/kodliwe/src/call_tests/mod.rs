// Made from crates/call_tests/src/lib.rt by packaging/crate/erase.py: edit that file instead.
//! Tests of each call for one symbol, of sinks, and of legacy symbols.
#[cfg(test)]
mod tests;
