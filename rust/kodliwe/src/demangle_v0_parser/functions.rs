// Made from crates/demangle_v0_parser/src/functions.rt by packaging/crate/erase.py: edit that file instead.
//! Continuations of function types.

use crate::demangle_v0_parser::lists::separator;
use crate::demangle_v0_parser::parse::Parser;
use crate::demangle_v0_parser::{Continuation, StepError};
use crate::demangle_v0_tokens::fixed_texts::FixedText;
use crate::demangle_v0_tokens::output::Output;
use crate::demangle_v0_tokens::read::TokenOutcome;
use crate::demangle_v0_tokens::token::{Abi, Token, TokenKind};

/// Returns whether a function has no qualifiers, so that nothing is printed before its `fn`.
#[cfg_attr(not(debug_assertions), inline(always))]
fn has_no_qualifiers(head: &Token) -> bool {
    matches!(head, Token::FunctionQualifiers(false, Abi::Rust))
}

impl Parser<'_, '_> {
    /// Reads the binder of a function type, after its `F`, and prints its lifetimes.
    ///
    /// The qualifiers follow. If there is no binder, the same step reads them.
    #[inline(never)]
    pub(super) fn function_binder<V: Output>(
        &mut self,
        output: &mut V,
    ) -> Result<Continuation, StepError> {
        let at = self.state.place_or_abort()?;
        self.fuel.pay_part();
        let (number, next) = self.source.symbol.opt_integer_62(b'G', at)?;
        self.state.place = Some(next);
        if number == 0 {
            return self.function_qualifiers(output);
        }
        self.bind_lifetimes(number, output)?;
        Ok(Continuation::FunctionQualifiers)
    }

    /// Reads whether a function is unsafe, and its ABI, and prints both. The parameters follow.
    #[inline(never)]
    pub(super) fn function_qualifiers<V: Output>(
        &mut self,
        output: &mut V,
    ) -> Result<Continuation, StepError> {
        match self.token_at(TokenKind::FunctionQualifiers, output) {
            TokenOutcome::Parsed(head, next) => {
                self.state.place = next;
                if has_no_qualifiers(&head) {
                    return Ok(self.queue_text(Continuation::OpenParameters));
                }
                self.emit(&head, output)?;
                Ok(Continuation::OpenParameters)
            }
            TokenOutcome::NotParsed(pending_text) => Err(StepError::Abort(pending_text)),
        }
    }

    /// Starts the next parameter of a function type, or ends the parameters.
    ///
    /// Queues the text before either: `, ` unless the parameter is the first, or `)`.
    #[cfg_attr(not(debug_assertions), inline(always))]
    pub(super) fn parameter(&mut self, is_first: bool) -> Continuation {
        if self.ends_list() {
            self.put(FixedText::CloseParen);
            return Continuation::Returns;
        }
        self.push(Continuation::NextParameter);
        self.state.pending_text = separator(is_first, FixedText::Comma);
        Continuation::Type
    }

    /// Starts the type that a function returns, and queues the ` -> ` before it.
    ///
    /// A `()` is read here, and nothing is printed for it.
    #[cfg_attr(not(debug_assertions), inline(always))]
    pub(super) fn returns(&mut self) -> Continuation {
        let Some(at) = self.state.place else {
            self.put(FixedText::Arrow);
            return Continuation::Type;
        };
        if self.source.symbol.is_at(b'u', at) {
            self.state.place = Some(at + 1);
            self.state.is_bracket_open = false;
            return Continuation::End;
        }
        self.put(FixedText::Arrow);
        Continuation::Type
    }
}
