// Made from crates/demangle_v0_tokens/src/backref.rt by packaging/crate/erase.py: edit that file instead.
//! Reads back references.

use crate::demangle_symbol::cursor::{MAX_DEPTH, ParseError, Symbol};
use crate::demangle_v0_tokens::fixed_texts::FixedText;

/// The result of reading a back reference.
#[derive(Clone, Copy)]
pub enum BackrefOutcome {
    /// The reference is not followed. The production ends with this error text.
    NotFollowed(FixedText),
    /// The place of the target, and the place after the reference.
    Target(usize, usize),
}

/// Reads a back reference after its `B`. `left` is how many more levels of nesting are allowed.
///
/// Returns the places of its target and after it. If the reference is invalid, if no level is left,
/// or after an error, it returns the error text.
#[cfg_attr(not(debug_assertions), inline(always))]
pub fn read_backref(symbol: &Symbol<'_>, left: u16, place: Option<usize>) -> BackrefOutcome {
    let Some(at) = place else {
        return BackrefOutcome::NotFollowed(FixedText::AfterError);
    };
    // No `B` is before the symbol's first byte.
    if at == 0 {
        return BackrefOutcome::NotFollowed(FixedText::Invalid);
    }
    // The remaining depth is never more than the whole depth. The difference saturates at 0 so that
    // no caller has to show that.
    let depth = MAX_DEPTH.saturating_sub(u32::from(left));
    match symbol.backref(at, depth) {
        Ok((target, following)) => BackrefOutcome::Target(target, following),
        Err(ParseError::Invalid) => BackrefOutcome::NotFollowed(FixedText::Invalid),
        Err(ParseError::RecursedTooDeep) => BackrefOutcome::NotFollowed(FixedText::Recursion),
    }
}
