// Made from crates/demangle_legacy/src/elements.rt by packaging/crate/erase.py: edit that file instead.
//! Reads the elements of a legacy symbol.

use crate::demangle_symbol::cursor::{Part, Symbol};

/// Returns the value of the decimal digit at a place, or `None` if another byte or the end is
/// there.
#[cfg_attr(not(debug_assertions), inline(always))]
fn digit_at(symbol: &Symbol<'_>, place: usize) -> Option<u8> {
    match symbol.byte(place) {
        Some(byte @ b'0'..=b'9') => Some(byte - b'0'),
        _ => None,
    }
}

/// Returns the length that is spelled at a place, and the place after its digits. Returns `None` if
/// there is no length, or if a `usize` cannot hold it.
// Almost all lengths have at most three digits. They are read without a loop, and cannot overflow.
#[cfg_attr(not(debug_assertions), inline(always))]
fn length_at(symbol: &Symbol<'_>, at: usize) -> Option<(usize, usize)> {
    let first = digit_at(symbol, at)?;
    let Some(second) = digit_at(symbol, at + 1) else {
        return Some((usize::from(first), at + 1));
    };
    let Some(third) = digit_at(symbol, at + 2) else {
        return Some((usize::from(first) * 10 + usize::from(second), at + 2));
    };
    let Some(_fourth) = digit_at(symbol, at + 3) else {
        let two = usize::from(first) * 10 + usize::from(second);
        return Some((two * 10 + usize::from(third), at + 3));
    };
    symbol.decimal(at).ok()
}

/// Returns the element whose length is spelled at a place. Returns `None` if there is no length, or
/// if the element would end after the symbol.
#[cfg_attr(not(debug_assertions), inline(always))]
pub(super) fn element_at(symbol: &Symbol<'_>, at: usize) -> Option<Part> {
    let end = symbol.len();
    let (len, from) = length_at(symbol, at)?;
    if len > end - from {
        return None;
    }
    Some(Part {
        from,
        to: from + len,
    })
}

/// Returns the place after the `E` that follows the elements, or `None` if there is no `E`.
pub(super) fn end_of(symbol: &Symbol<'_>) -> Option<usize> {
    let mut at = 0;
    while let Some(element) = element_at(symbol, at) {
        at = element.to;
    }
    if symbol.is_at(b'E', at) {
        Some(at + 1)
    } else {
        None
    }
}
