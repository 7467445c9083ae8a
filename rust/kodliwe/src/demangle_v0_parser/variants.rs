// Made from crates/demangle_v0_parser/src/variants.rt by packaging/crate/erase.py: edit that file instead.
//! Continuations of variants and of their fields.

use crate::demangle_v0_parser::names::has_encoded_name;
use crate::demangle_v0_parser::parse::Parser;
use crate::demangle_v0_parser::{Continuation, StepError};
use crate::demangle_v0_tokens::fixed_texts::FixedText;
use crate::demangle_v0_tokens::output::Output;
use crate::demangle_v0_tokens::read::TokenOutcome;
use crate::demangle_v0_tokens::tags::{VariantKind, variant_kind};
use crate::demangle_v0_tokens::token::TokenKind;

impl Parser<'_, '_> {
    /// Ends a variant without fields, and queues its closing brace outside value position.
    #[cfg_attr(not(debug_assertions), inline(always))]
    fn unit_variant(&mut self) -> Continuation {
        self.state.is_bracket_open = false;
        if self.state.in_value {
            return Continuation::End;
        }
        self.put(FixedText::CloseBrace);
        Continuation::End
    }

    /// Queues the text that opens a variant's fields, and returns `fields`.
    ///
    /// Outside value position it also pushes a frame for the variant's closing brace.
    #[cfg_attr(not(debug_assertions), inline(always))]
    fn open_fields(&mut self, pending_text: FixedText, fields: Continuation) -> Continuation {
        if !self.state.in_value {
            self.push(Continuation::CloseBrace);
        }
        self.put(pending_text);
        fields
    }

    /// Reads the tag that follows the path of a variant, and opens the variant's fields.
    #[inline(never)]
    pub(super) fn variant(&mut self) -> Result<Continuation, StepError> {
        let at = self.state.place_or_abort()?;
        let (tag, next) = self.source.symbol.tag(at)?;
        let kind = variant_kind(tag).ok_or(StepError::Abort(FixedText::Invalid))?;
        self.state.place = Some(next);
        match kind {
            VariantKind::Unit => Ok(self.unit_variant()),
            VariantKind::Tuple => {
                Ok(self.open_fields(FixedText::OpenParen, Continuation::FirstVariantConstant))
            }
            VariantKind::Fields => {
                Ok(self.open_fields(FixedText::OpenStruct, Continuation::FirstField))
            }
        }
    }

    /// Reads and prints the name of a field.
    #[inline(never)]
    pub(super) fn field<V: Output>(&mut self, output: &mut V) -> Result<Continuation, StepError> {
        match self.token_at(TokenKind::FieldName, output) {
            TokenOutcome::Parsed(token, next) => {
                self.state.place = next;
                self.fuel.pay_text(has_encoded_name(&token));
                self.emit(&token, output)?;
                Ok(Continuation::FieldColon)
            }
            TokenOutcome::NotParsed(pending_text) => Err(StepError::Abort(pending_text)),
        }
    }
}
