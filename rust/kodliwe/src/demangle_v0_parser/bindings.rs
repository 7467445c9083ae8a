// Made from crates/demangle_v0_parser/src/bindings.rt by packaging/crate/erase.py: edit that file instead.
//! Continuations of the bindings of a dyn trait path.

use crate::demangle_v0_parser::names::has_encoded_name;
use crate::demangle_v0_parser::parse::Parser;
use crate::demangle_v0_parser::{Continuation, StepError};
use crate::demangle_v0_tokens::fixed_texts::FixedText;
use crate::demangle_v0_tokens::output::Output;
use crate::demangle_v0_tokens::read::TokenOutcome;
use crate::demangle_v0_tokens::token::TokenKind;

/// Returns the text after the last binding: a `>` if the bracket is open.
#[cfg_attr(not(debug_assertions), inline(always))]
fn closing_text(is_bracket_open: bool) -> Option<FixedText> {
    if is_bracket_open {
        Some(FixedText::Greater)
    } else {
        None
    }
}

/// Returns the text before a binding: a `<` if the bracket is not yet open.
#[cfg_attr(not(debug_assertions), inline(always))]
fn opening_text(is_bracket_open: bool) -> FixedText {
    if is_bracket_open {
        FixedText::Comma
    } else {
        FixedText::Less
    }
}

impl Parser<'_, '_> {
    /// Starts the next binding of a dyn trait, or ends its bindings.
    ///
    /// Queues the text before either, which depends on whether the bracket is open.
    #[cfg_attr(not(debug_assertions), inline(always))]
    fn binding(&mut self, is_bracket_open: bool) -> Continuation {
        let Some(at) = self.state.place else {
            self.state.pending_text = closing_text(is_bracket_open);
            self.state.is_bracket_open = false;
            return Continuation::End;
        };
        if !self.source.symbol.is_at(b'p', at) {
            self.state.pending_text = closing_text(is_bracket_open);
            return Continuation::NextDynTrait;
        }
        self.state.place = Some(at + 1);
        self.state.pending_text = Some(opening_text(is_bracket_open));
        Continuation::BindingName
    }

    /// Starts the first binding after the path of a dyn trait, or ends its bindings.
    #[cfg_attr(not(debug_assertions), inline(always))]
    pub(super) fn bindings(&mut self) -> Continuation {
        self.binding(self.state.is_bracket_open)
    }

    /// Starts a further binding of a dyn trait, or ends its bindings.
    #[cfg_attr(not(debug_assertions), inline(always))]
    pub(super) fn further_bindings(&mut self) -> Continuation {
        self.binding(true)
    }

    /// Reads the name of a binding, and prints it with its ` = `. The value follows.
    #[inline(never)]
    pub(super) fn binding_name<V: Output>(
        &mut self,
        output: &mut V,
    ) -> Result<Continuation, StepError> {
        match self.token_at(TokenKind::BindingName, output) {
            TokenOutcome::Parsed(name, next) => {
                self.state.place = next;
                self.fuel.pay_text(has_encoded_name(&name));
                self.emit(&name, output)?;
                Ok(Continuation::BindingValue)
            }
            TokenOutcome::NotParsed(pending_text) => Err(StepError::Abort(pending_text)),
        }
    }

    /// Starts the value of a binding: a constant or a type. Further bindings follow it.
    #[cfg_attr(not(debug_assertions), inline(always))]
    pub(super) fn bound_value(&mut self) -> Continuation {
        self.push(Continuation::FurtherBindings);
        self.state.in_value = false;
        let Some(at) = self.state.place else {
            return Continuation::Type;
        };
        if self.source.symbol.is_at(b'K', at) {
            self.state.place = Some(at + 1);
            return Continuation::Constant;
        }
        Continuation::Type
    }
}
