// Made from crates/demangle_v0_parser/src/tokens.rt by packaging/crate/erase.py: edit that file instead.
//! Reads tokens and prints them.

use crate::demangle_sink::SinkRefused;
use crate::demangle_v0_parser::parse::Parser;
use crate::demangle_v0_parser::{Continuation, StepError};
use crate::demangle_v0_tokens::output::Output;
use crate::demangle_v0_tokens::read::{TokenOutcome, TokenReader};
use crate::demangle_v0_tokens::token::{Token, TokenKind};

impl Parser<'_, '_> {
    /// Passes a token to the output.
    ///
    /// It fails if the output does.
    #[cfg_attr(not(debug_assertions), inline(always))]
    pub(super) fn emit<V: Output>(
        &mut self,
        token: &Token,
        output: &mut V,
    ) -> Result<(), SinkRefused> {
        output.emit(&self.source, token)
    }

    /// Reads the token at the current offset, and prints nothing.
    ///
    /// Lifetimes are only checked if `output` prints.
    #[cfg_attr(not(debug_assertions), inline(always))]
    pub(super) fn token_at<V: Output>(
        &mut self,
        token_kind: TokenKind,
        output: &V,
    ) -> TokenOutcome {
        let reader = TokenReader {
            symbol: self.source.symbol,
            tag: self.state.letter,
            is_printing: output.is_printing(),
            lifetimes: self.state.lifetimes,
        };
        reader.read_token(token_kind, self.state.place)
    }

    /// Reads and prints the last token of a production.
    #[cfg_attr(not(debug_assertions), inline(always))]
    pub(super) fn end_with_token<V: Output>(
        &mut self,
        token_kind: TokenKind,
        output: &mut V,
    ) -> Result<Continuation, StepError> {
        match self.token_at(token_kind, output) {
            TokenOutcome::Parsed(token, next) => {
                self.state.place = next;
                self.state.is_bracket_open = false;
                self.emit(&token, output)?;
                Ok(Continuation::End)
            }
            TokenOutcome::NotParsed(pending_text) => Err(StepError::Abort(pending_text)),
        }
    }
}
