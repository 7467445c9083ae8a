// Made from crates/demangle_v0_parser/src/constants.rt by packaging/crate/erase.py: edit that file instead.
//! Continuations of constants.

use crate::demangle_v0_parser::parse::Parser;
use crate::demangle_v0_parser::{Continuation, StepError};
use crate::demangle_v0_tokens::fixed_texts::FixedText;
use crate::demangle_v0_tokens::output::Output;
use crate::demangle_v0_tokens::tags::{ConstantKind, constant_kind};
use crate::demangle_v0_tokens::token::TokenKind;

impl Parser<'_, '_> {
    /// Reads and prints a string, with which the constant ends.
    #[inline(never)]
    pub(super) fn literal<V: Output>(&mut self, output: &mut V) -> Result<Continuation, StepError> {
        self.end_with_token(TokenKind::StrLiteral, output)
    }

    /// Reads and prints a number, with which the constant ends.
    ///
    /// The state's letter is the tag of the number's type.
    #[inline(never)]
    pub(super) fn number<V: Output>(&mut self, output: &mut V) -> Result<Continuation, StepError> {
        self.end_with_token(TokenKind::Number, output)
    }

    /// Returns `constant`, and puts it in braces if the constant is outside value position.
    ///
    /// It queues the opening brace and pushes a frame for the closing one.
    #[cfg_attr(not(debug_assertions), inline(always))]
    fn with_braces(&mut self, constant: Continuation) -> Continuation {
        // An expression that is not a literal needs braces in Rust as an argument of a path.
        if !self.state.in_value {
            self.push(Continuation::CloseBrace);
            self.put(FixedText::OpenBrace);
        }
        constant
    }

    /// Reads a number that may be negative, after its tag.
    ///
    /// It queues the `-` of a negative number, whose digits the next step reads.
    #[cfg_attr(not(debug_assertions), inline(always))]
    fn signed_number<V: Output>(
        &mut self,
        tag: u8,
        output: &mut V,
    ) -> Result<Continuation, StepError> {
        let at = self.state.place_or_abort()?;
        self.state.letter = tag;
        if self.source.symbol.is_at(b'n', at) {
            self.state.place = Some(at + 1);
            self.put(FixedText::Minus);
            return Ok(Continuation::Number);
        }
        self.number(output)
    }

    /// Starts a string or a shared reference, after its `R`.
    #[cfg_attr(not(debug_assertions), inline(always))]
    fn shared_reference(&mut self) -> Continuation {
        let Some(at) = self.state.place else {
            return self.with_braces(Continuation::ReferenceConstant);
        };
        // `Re` is printed as `".."`, which has the type `&str`, and not as `&*".."`.
        if self.source.symbol.is_at(b'e', at) {
            self.state.place = Some(at + 1);
            // The characters of a string are slow to print.
            self.fuel.pay_text(true);
            return Continuation::StrLiteral;
        }
        self.with_braces(Continuation::ReferenceConstant)
    }

    /// Starts the path of a variant, after its `V`.
    #[cfg_attr(not(debug_assertions), inline(always))]
    fn variant_path(&mut self) -> Continuation {
        self.push(Continuation::Variant);
        if self.state.in_value {
            return Continuation::Path;
        }
        self.put(FixedText::OpenBrace);
        self.state.in_value = true;
        Continuation::Path
    }

    /// Reads a constant, after its tag.
    #[cfg_attr(not(debug_assertions), inline(always))]
    fn tagged_constant<V: Output>(
        &mut self,
        tag: u8,
        output: &mut V,
    ) -> Result<Continuation, StepError> {
        let kind = constant_kind(tag).ok_or(StepError::Abort(FixedText::Invalid))?;
        match kind {
            ConstantKind::Placeholder => Ok(self.end_with(FixedText::Placeholder)),
            ConstantKind::Unsigned => {
                self.state.letter = tag;
                self.number(output)
            }
            ConstantKind::Signed => self.signed_number(tag, output),
            ConstantKind::Bool => self.end_with_token(TokenKind::Bool, output),
            ConstantKind::Char => self.end_with_token(TokenKind::Character, output),
            ConstantKind::Text => {
                // The characters of a string are slow to print.
                self.fuel.pay_text(true);
                Ok(self.with_braces(Continuation::StrConstant))
            }
            ConstantKind::Shared => Ok(self.shared_reference()),
            ConstantKind::Mut => Ok(self.with_braces(Continuation::MutReferenceConstant)),
            ConstantKind::Array => Ok(self.with_braces(Continuation::ArrayConstant)),
            ConstantKind::Tuple => Ok(self.with_braces(Continuation::TupleConstant)),
            ConstantKind::Variant => Ok(self.variant_path()),
            ConstantKind::Backref => self.follow_backref(Continuation::Constant, output),
        }
    }

    /// Reads the tag of a constant and what follows it, up to the first constant or path in it.
    #[inline(never)]
    pub(super) fn constant<V: Output>(
        &mut self,
        output: &mut V,
    ) -> Result<Continuation, StepError> {
        let at = self.state.place_or_abort()?;
        let (tag, next) = self.source.symbol.tag(at)?;
        // Every constant raises the depth, even a number or a placeholder. A basic type does not.
        self.enter()?;
        self.fuel.pay_part();
        self.state.place = Some(next);
        self.tagged_constant(tag, output)
    }
}
