// Made from crates/kodliwe_tests/src/lib.rt by packaging/crate/erase.py: edit that file instead.
//! Tests of what the program `kodliwe` does.
#[cfg(test)]
mod tests;
