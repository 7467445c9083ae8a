// Made from crates/limit_tests/src/lib.rt by packaging/crate/erase.py: edit that file instead.
//! Tests of limits, and of references and fuel.
#[cfg(test)]
mod tests;
