// Made from crates/demangle_v0_tokens/src/read/names.rt by packaging/crate/erase.py: edit that file instead.
//! Reads names and their disambiguators.

use crate::demangle_symbol::cursor::{Ident, Symbol};
use crate::demangle_v0_tokens::read::{TokenOutcome, TokenReader, invalid_token, token_read};
use crate::demangle_v0_tokens::token::Token;

/// Reads a disambiguator, which gets no value, and the name after it. Returns the name and the place
/// after it, or `None` if they are not spelled there.
#[cfg_attr(not(debug_assertions), inline(always))]
pub fn name_after_disambiguator(symbol: &Symbol<'_>, place: usize) -> Option<(Ident, usize)> {
    let Ok(at) = symbol.after_disambiguator(place) else {
        return None;
    };
    let Ok((ident, next)) = symbol.ident(at) else {
        return None;
    };
    Some((ident, next))
}

impl TokenReader<'_> {
    /// Reads the name of a field, whose disambiguator is not printed.
    #[cfg_attr(not(debug_assertions), inline(always))]
    pub(super) fn read_field(&self, place: usize) -> TokenOutcome {
        match name_after_disambiguator(self.symbol, place) {
            Some((ident, next)) => token_read(Token::FieldName(ident), next),
            None => invalid_token(),
        }
    }

    /// Reads the name of an associated type that a trait's arguments bind.
    #[cfg_attr(not(debug_assertions), inline(always))]
    pub(super) fn read_binding(&self, place: usize) -> TokenOutcome {
        match self.symbol.ident(place) {
            Ok((ident, next)) => token_read(Token::BindingName(ident), next),
            Err(_) => invalid_token(),
        }
    }
}
