// Made from crates/demangle_v0_tokens/src/read/lifetimes.rt by packaging/crate/erase.py: edit that file instead.
//! Reads lifetimes, by their index.

use crate::demangle_v0_tokens::read::{TokenOutcome, TokenReader, invalid_token, token_read};
use crate::demangle_v0_tokens::token::Token;

impl TokenReader<'_> {
    /// Returns the token of a lifetime whose index is not 0. If tokens are printed, an index that
    /// exceeds the lifetimes in scope is an error.
    #[cfg_attr(not(debug_assertions), inline(always))]
    fn checked_lifetime(
        &self,
        index: u64,
        next: usize,
        named: Token,
        fault: Token,
    ) -> TokenOutcome {
        // The Rust crate counts no binders if it prints nothing, so it then checks no lifetime.
        if !self.is_printing {
            token_read(Token::Nothing, next)
        } else if u128::from(index) <= self.lifetimes {
            token_read(named, next)
        } else {
            // The error is printed after a `'`, so it has a token of its own.
            TokenOutcome::Parsed(fault, None)
        }
    }

    /// Reads a lifetime, by its index: `_` for 0.
    #[cfg_attr(not(debug_assertions), inline(always))]
    pub(super) fn read_lifetime(&self, place: usize) -> TokenOutcome {
        let Ok((index, next)) = self.symbol.integer_62(place) else {
            return invalid_token();
        };
        if index == 0 {
            return token_read(Token::Lifetime(None), next);
        }
        // If the index exceeds the lifetimes in scope, this number is not used.
        let number = self.lifetimes.saturating_sub(u128::from(index));
        let named = Token::Lifetime(Some(number));
        self.checked_lifetime(index, next, named, Token::LifetimeError)
    }

    /// Reads the lifetime of a dyn type, which may not be missing. That of index 0 is not printed.
    #[cfg_attr(not(debug_assertions), inline(always))]
    pub(super) fn read_dyn_lifetime(&self, place: usize) -> TokenOutcome {
        if !self.symbol.is_at(b'L', place) {
            return invalid_token();
        }
        let Ok((index, next)) = self.symbol.integer_62(place + 1) else {
            return invalid_token();
        };
        if index == 0 {
            return token_read(Token::Nothing, next);
        }
        let number = self.lifetimes.saturating_sub(u128::from(index));
        let named = Token::DynLifetime(number);
        self.checked_lifetime(index, next, named, Token::DynLifetimeError)
    }
}
