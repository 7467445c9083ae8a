// Made from crates/limit_tests/src/tests.rt by packaging/crate/erase.py: edit that file instead.
//! Tests of limits, of references and of fuel.
use crate::demangle_vectors::{print_symbol, printed_is};
use crate::rustc_demangle::try_demangle;
use crate::support::alloc::{AllocError, Global};

mod fuel;
mod hostile;
mod limits;
mod repeated_references;
mod reread;
mod v0_hostile;
mod v0_limits;

/// Asserts that a text is a symbol that prints as these texts, with the hash and without it.
fn assert_prints(symbol: &str, plain: &str, alt: &str) {
    assert!(try_demangle(symbol).is_ok(), "{symbol} is a symbol");
    assert!(printed_is(symbol, true, plain), "{symbol} with the hash");
    assert!(printed_is(symbol, false, alt), "{symbol} without the hash");
}

/// Asserts that a text is not a symbol and prints as this text in both forms.
fn assert_rejected(text: &str, printed: &str) {
    assert!(try_demangle(text).is_err(), "{text} is no symbol");
    assert!(printed_is(text, true, printed), "{text} with the hash");
    assert!(printed_is(text, false, printed), "{text} without the hash");
}

/// Asserts that a text is a symbol that prints as this text in both forms, of any length.
fn assert_prints_long(alloc: Global, symbol: &str, text: &str) -> Result<(), AllocError> {
    assert!(try_demangle(symbol).is_ok(), "it is a symbol");
    for include_hash in [true, false] {
        let printed = print_symbol(alloc, symbol, include_hash)?;
        assert!(printed.as_slice() == text.as_bytes(), "it prints the text");
    }
    Ok(())
}
