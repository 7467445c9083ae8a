// Made from crates/demangle_v0_parser/src/reference_types.rt by packaging/crate/erase.py: edit that file instead.
//! Continuations of reference types.

use crate::demangle_v0_parser::parse::Parser;
use crate::demangle_v0_parser::{Continuation, StepError};
use crate::demangle_v0_tokens::fixed_texts::FixedText;
use crate::demangle_v0_tokens::output::Output;
use crate::demangle_v0_tokens::token::Token;

/// Returns the continuation after the lifetime of a reference.
#[cfg_attr(not(debug_assertions), inline(always))]
fn after_reference_lifetime(is_mut: bool) -> Continuation {
    if is_mut {
        Continuation::Mut
    } else {
        Continuation::Type
    }
}

/// Returns the token for the lifetime of an index above 0, and the place after it.
///
/// If the index is above the lifetimes in scope, the token is an error, and there is no place.
#[cfg_attr(not(debug_assertions), inline(always))]
fn spaced_lifetime(lifetimes: u128, index: u64, next: usize) -> (Token, Option<usize>) {
    if u128::from(index) > lifetimes {
        return (Token::SpacedLifetimeError, None);
    }
    (
        Token::SpacedLifetime(lifetimes - u128::from(index)),
        Some(next),
    )
}

impl Parser<'_, '_> {
    /// Queues the `&` of a reference, and reads the `L` if a lifetime follows.
    #[cfg_attr(not(debug_assertions), inline(always))]
    pub(super) fn reference_type(&mut self, is_mut: bool) -> Continuation {
        self.put(FixedText::Ampersand);
        let Some(at) = self.state.place else {
            return after_reference_lifetime(is_mut);
        };
        if !self.source.symbol.is_at(b'L', at) {
            return after_reference_lifetime(is_mut);
        }
        self.state.place = Some(at + 1);
        if is_mut {
            Continuation::MutReferenceLifetime
        } else {
            Continuation::ReferenceLifetime
        }
    }

    /// Reads the lifetime of a reference, after its `L`, and prints it with a space.
    ///
    /// The lifetime `'_` is not printed. A lifetime that is not in scope is an error, but only if
    /// `output` prints.
    #[cfg_attr(not(debug_assertions), inline(always))]
    pub(super) fn reference_lifetime<V: Output>(
        &mut self,
        is_mut: bool,
        output: &mut V,
    ) -> Result<Continuation, StepError> {
        let at = self.state.place_or_abort()?;
        let (index, next) = self.source.symbol.integer_62(at)?;
        self.state.place = Some(next);
        // `&'_ T` is printed as `&T`. Without output no lifetime is checked.
        if index == 0 || !output.is_printing() {
            return Ok(after_reference_lifetime(is_mut));
        }
        let (token, place) = spaced_lifetime(self.state.lifetimes, index, next);
        self.state.place = place;
        self.emit(&token, output)?;
        Ok(after_reference_lifetime(is_mut))
    }
}
