// Made from crates/call_tests/src/tests.rt by packaging/crate/erase.py: edit that file instead.
//! Tests of each call for one symbol, of sinks, and of legacy symbols.
use crate::demangle_vectors::printed_is;
use crate::rustc_demangle::try_demangle;

mod calls;
mod folded;
mod formats;
mod legacy;
mod legacy_elements;
mod pieces;
mod refused;
mod sinks;

/// Asserts that a text is a symbol that prints as these texts, with the hash and without it.
fn assert_prints(symbol: &str, plain: &str, alt: &str) {
    assert!(try_demangle(symbol).is_ok(), "{symbol} is a symbol");
    assert!(printed_is(symbol, true, plain), "{symbol} with the hash");
    assert!(printed_is(symbol, false, alt), "{symbol} without the hash");
}

/// Asserts that a text is not a symbol and prints as this text in both forms.
fn assert_rejected(text: &str, printed: &str) {
    assert!(try_demangle(text).is_err(), "{text} is no symbol");
    assert!(printed_is(text, true, printed), "{text} with the hash");
    assert!(printed_is(text, false, printed), "{text} without the hash");
}
