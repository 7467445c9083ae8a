// Made from crates/demangle_v0_tokens/src/render/lifetimes.rt by packaging/crate/erase.py: edit that file instead.
//! Prints the names of lifetimes, and binders.

use crate::demangle_sink::{SinkRefused, SizeLimitedFmtAdapter, TextSink, put_char};
use crate::demangle_v0_tokens::render::numbers::put_decimal;

/// Prints the name of the lifetime of a number: a letter, or `_` and the number.
fn put_letter<S: TextSink>(
    number: u128,
    out: &mut SizeLimitedFmtAdapter<'_, S>,
) -> Result<(), SinkRefused> {
    if number < 26 {
        return put_char(char::from(b'a' + number as u8), out);
    }
    // After `'z` comes `'_26`: the number itself, not its distance from the letters.
    out.put("_")?;
    put_decimal(number, out)
}

/// Prints the lifetime of a number.
#[inline(never)]
pub(super) fn put_lifetime<S: TextSink>(
    number: u128,
    out: &mut SizeLimitedFmtAdapter<'_, S>,
) -> Result<(), SinkRefused> {
    out.put("'")?;
    put_letter(number, out)
}

/// Prints the lifetime of a number, and a space after it.
#[inline(never)]
pub(super) fn put_spaced_lifetime<S: TextSink>(
    number: u128,
    out: &mut SizeLimitedFmtAdapter<'_, S>,
) -> Result<(), SinkRefused> {
    put_lifetime(number, out)?;
    out.put(" ")
}

/// Prints a text, and the lifetime of a number after it.
#[inline(never)]
pub(super) fn put_prefixed_lifetime<S: TextSink>(
    before: &str,
    number: u128,
    out: &mut SizeLimitedFmtAdapter<'_, S>,
) -> Result<(), SinkRefused> {
    out.put(before)?;
    put_lifetime(number, out)
}

/// Prints the binder of `count` new lifetimes, whose numbers begin at `first`. It prints nothing
/// if `count` is 0.
#[inline(never)]
pub(super) fn put_binder<S: TextSink>(
    first: u128,
    count: u64,
    out: &mut SizeLimitedFmtAdapter<'_, S>,
) -> Result<(), SinkRefused> {
    if count == 0 {
        return Ok(());
    }
    put_prefixed_lifetime("for<", first, out)?;
    for at in 1..count {
        put_prefixed_lifetime(", ", first + at as u128, out)?;
    }
    out.put("> ")
}
