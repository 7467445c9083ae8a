// Made from crates/filter_program_tests/src/lib.rt by packaging/crate/erase.py: edit that file instead.
//! Tests of what the program `demangle_filter` does.
#[cfg(test)]
mod tests;
