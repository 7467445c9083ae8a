// Made from crates/demangle_legacy/src/lib.rt by packaging/crate/erase.py: edit that file instead.
//! Parses and prints legacy symbols: `_ZN`, then elements after their lengths, then `E`.

#[cfg(feature = "stream")]
use crate::demangle_sink::{SizeLimitedFmtAdapter, TextSink};
use crate::demangle_symbol::cursor::Symbol;
#[cfg(feature = "stream")]
use crate::demangle_symbol::form::Form;

mod elements;
mod hexadecimal;
mod printing;
mod units;
mod value;

pub use value::Demangle;

/// Returns the text after the prefix of a legacy symbol, or `None` if it has no such prefix.
fn inner_of(s: &str) -> Option<&str> {
    if let Some(inner) = s.strip_prefix("_ZN") {
        return Some(inner);
    }
    // On Windows, dbghelp strips the leading underscore.
    if let Some(inner) = s.strip_prefix("ZN") {
        return Some(inner);
    }
    // On macOS, symbols have an additional underscore.
    s.strip_prefix("__ZN")
}

/// Returns the text after the prefix of a legacy symbol, if that text is ASCII. `is_ascii` says
/// that the text is known to be ASCII. In that case it is not tested.
// It is inlined, since most texts that are asked about have no prefix.
#[cfg_attr(not(debug_assertions), inline(always))]
fn ascii_inner_of(s: &str, is_ascii: bool) -> Option<&str> {
    let inner = inner_of(s)?;
    if is_ascii {
        return Some(inner);
    }
    if !Symbol::new(inner).is_ascii() {
        return None;
    }
    Some(inner)
}

/// Parses a legacy symbol. Returns the symbol and the suffix after its `E`. `is_ascii` says that
/// the text is known to be ASCII.
///
/// # Errors
///
/// Returns `Err` if the text is not a legacy symbol.
pub fn demangle(s: &str, is_ascii: bool) -> Result<(Demangle<'_>, &str), ()> {
    // A length counts bytes. In other text, an element could end within a character.
    let Some(inner) = ascii_inner_of(s, is_ascii) else {
        return Err(());
    };
    let symbol = Symbol::new(inner);
    let Some(end) = elements::end_of(&symbol) else {
        return Err(());
    };
    Ok((Demangle::new(symbol), &inner[end..]))
}

/// Parses a legacy symbol and prints its elements, in one pass. Returns the symbol and the suffix
/// after its `E`. The hash is omitted unless `form` includes it. The text must be ASCII.
///
/// Returns `None` if the text is not a legacy symbol, or if the sink or the limit rejects a piece.
/// Then an unknown part of it may be printed, and `demangle` says whether the text is a symbol.
#[cfg(feature = "stream")]
pub fn demangle_printed<'s, S: TextSink>(
    s: &'s str,
    out: &mut SizeLimitedFmtAdapter<'_, S>,
    form: Form,
) -> Option<(Demangle<'s>, &'s str)> {
    let inner = ascii_inner_of(s, true)?;
    let symbol = Symbol::new(inner);
    let Ok(Some(end)) = value::print_elements(&symbol, out, form) else {
        return None;
    };
    Some((Demangle::new(symbol), &inner[end..]))
}
