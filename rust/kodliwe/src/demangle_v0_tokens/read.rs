// Made from crates/demangle_v0_tokens/src/read.rt by packaging/crate/erase.py: edit that file instead.
//! Reads the tokens of a v0 symbol. One step reads at most one.

use crate::demangle_symbol::cursor::Symbol;
use crate::demangle_v0_tokens::fixed_texts::FixedText;
use crate::demangle_v0_tokens::token::{Abi, Token, TokenKind};

mod constants;
mod functions;
mod lifetimes;
pub mod names;

/// The result of reading a token.
#[derive(Clone, Copy)]
pub enum TokenOutcome {
    /// The token, and the place after it.
    Parsed(Token, Option<usize>),
    /// The error with which the production ends.
    NotParsed(FixedText),
}

/// Reads the tokens of a symbol.
#[derive(Clone, Copy)]
pub struct TokenReader<'s> {
    pub symbol: &'s Symbol<'s>,
    /// The tag of a number.
    pub tag: u8,
    /// Whether the tokens are printed.
    pub is_printing: bool,
    /// How many lifetimes are in scope.
    pub lifetimes: u128,
}

impl TokenReader<'_> {
    /// Reads a token at a place, which is `None` after an error.
    ///
    /// Returns the token and the place after it, or the error text with which the production ends.
    #[cfg_attr(not(debug_assertions), inline(always))]
    pub fn read_token(&self, token_kind: TokenKind, place: Option<usize>) -> TokenOutcome {
        let Some(at) = place else {
            return token_after_error(token_kind);
        };
        match token_kind {
            TokenKind::FieldName => self.read_field(at),
            TokenKind::BindingName => self.read_binding(at),
            TokenKind::LifetimeIndex => self.read_lifetime(at),
            TokenKind::DynLifetime => self.read_dyn_lifetime(at),
            TokenKind::FunctionQualifiers => self.read_function_qualifiers(at),
            TokenKind::Number => self.read_number(at),
            TokenKind::Bool => self.read_bool(at),
            TokenKind::Character => self.read_character(at),
            TokenKind::StrLiteral => self.read_literal(at),
        }
    }
}

/// Returns the outcome for a token that is not read, because there was an error before it.
#[cfg_attr(not(debug_assertions), inline(always))]
fn token_after_error(token_kind: TokenKind) -> TokenOutcome {
    match token_kind {
        // A dyn type needs its `L`. After an error it is missing, and the Rust crate prints this as
        // a new error.
        TokenKind::DynLifetime => invalid_token(),
        // `U` and `K` are optional, and after an error they are missing.
        TokenKind::FunctionQualifiers => {
            TokenOutcome::Parsed(Token::FunctionQualifiers(false, Abi::Rust), None)
        }
        _ => TokenOutcome::NotParsed(FixedText::AfterError),
    }
}

/// Returns the result for a token that is not spelled.
#[cfg_attr(not(debug_assertions), inline(always))]
fn invalid_token() -> TokenOutcome {
    TokenOutcome::NotParsed(FixedText::Invalid)
}

/// Returns the result for a token that is spelled, and ends before `next`.
#[cfg_attr(not(debug_assertions), inline(always))]
fn token_read(token: Token, next: usize) -> TokenOutcome {
    TokenOutcome::Parsed(token, Some(next))
}
