// Made from crates/demangle_v0_tokens/src/read/functions.rt by packaging/crate/erase.py: edit that file instead.
//! Reads the qualifiers of function types: `unsafe`, and the ABI.

use crate::demangle_symbol::cursor::Ident;
use crate::demangle_v0_tokens::read::{TokenOutcome, TokenReader, invalid_token, token_read};
use crate::demangle_v0_tokens::token::{Abi, Token};

impl TokenReader<'_> {
    /// Returns the qualifiers of a function type whose ABI has this name. The name is invalid if
    /// its ASCII part is empty or its Punycode part is not.
    fn abi_named(&self, is_unsafe: bool, ident: Ident, next: usize) -> TokenOutcome {
        // The Rust crate rejects both: an ABI's name is ASCII, with `_` in place of its `-`.
        if ident.ascii.from == ident.ascii.to || ident.punycode.from < ident.punycode.to {
            return invalid_token();
        }
        let abi = Abi::Named(ident.ascii);
        token_read(Token::FunctionQualifiers(is_unsafe, abi), next)
    }

    /// Reads the ABI of a function type, which is Rust's if none is named.
    fn read_abi(&self, is_unsafe: bool, place: usize) -> TokenOutcome {
        if !self.symbol.is_at(b'K', place) {
            return token_read(Token::FunctionQualifiers(is_unsafe, Abi::Rust), place);
        }
        if self.symbol.is_at(b'C', place + 1) {
            return token_read(Token::FunctionQualifiers(is_unsafe, Abi::C), place + 2);
        }
        match self.symbol.ident(place + 1) {
            Ok((ident, next)) => self.abi_named(is_unsafe, ident, next),
            Err(_) => invalid_token(),
        }
    }

    /// Reads the qualifiers of a function type: whether it is unsafe, and its ABI.
    #[cfg_attr(not(debug_assertions), inline(always))]
    pub(super) fn read_function_qualifiers(&self, place: usize) -> TokenOutcome {
        if self.symbol.is_at(b'U', place) {
            self.read_abi(true, place + 1)
        } else {
            self.read_abi(false, place)
        }
    }
}
