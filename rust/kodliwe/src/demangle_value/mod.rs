// Made from crates/demangle_value/src/lib.rt by packaging/crate/erase.py: edit that file instead.
//! The value of one Rust symbol: how it is read and printed.

pub mod coalescing;
mod display;
pub mod format;
mod strip;
pub mod value;

use strip::without_thin_lto;
use value::{Demangle, has_style};

/// The error for a text that is not a Rust symbol.
#[derive(Debug, Clone)]
pub struct TryDemangleError {
    _priv: (),
}

/// Parses a text as a Rust symbol, in the legacy scheme or in v0 (Rust RFC 2603).
///
/// A suffix that ThinLTO appended is removed first. A text that is not a symbol is kept as it is.
/// It does not allocate.
pub fn demangle(s: &str) -> Demangle<'_> {
    Demangle::read(without_thin_lto(s), false)
}

/// Parses a text as a Rust symbol, as `try_demangle` does. Fails if it is not a symbol.
pub fn try_demangle(s: &str) -> Result<Demangle<'_>, TryDemangleError> {
    let symbol = demangle(s);
    if has_style(&symbol) {
        Ok(symbol)
    } else {
        Err(TryDemangleError { _priv: () })
    }
}
