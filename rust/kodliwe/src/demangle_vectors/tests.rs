// Made from crates/demangle_vectors/src/tests.rt by packaging/crate/erase.py: edit that file instead.
//! Tests with v0 symbols and their parts, and with the vectors of the Rust crate.
use crate::demangle_vectors::printed_is;
use crate::rustc_demangle::try_demangle;

mod beginnings;
mod literals;
mod names;
mod primitives;
mod v0_constants;
mod v0_literals;
mod v0_paths;
mod v0_references;
mod v0_types;
mod vectors;

/// Asserts that a text is a symbol that prints as these texts, with the hash and without it.
fn assert_prints(symbol: &str, plain: &str, alt: &str) {
    assert!(try_demangle(symbol).is_ok(), "{symbol} is a symbol");
    assert!(printed_is(symbol, true, plain), "{symbol} with the hash");
    assert!(printed_is(symbol, false, alt), "{symbol} without the hash");
}

/// Asserts that a text is not a symbol and prints as this text in both forms.
fn assert_rejected(text: &str, printed: &str) {
    assert!(try_demangle(text).is_err(), "{text} is no symbol");
    assert!(printed_is(text, true, printed), "{text} with the hash");
    assert!(printed_is(text, false, printed), "{text} without the hash");
}
