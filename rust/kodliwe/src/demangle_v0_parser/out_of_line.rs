// Made from crates/demangle_v0_parser/src/out_of_line.rt by packaging/crate/erase.py: edit that file instead.
//! Continuations that few symbols have. Each is a call, so that the loops stay small: with the
//! continuations themselves in place of `OutOfLine`, a v0 line takes 0.1 % more instructions.

use crate::demangle_v0_parser::parse::Parser;
use crate::demangle_v0_parser::{Continuation, StepError};
use crate::demangle_v0_tokens::output::Output;
use crate::demangle_v0_tokens::token::TokenKind;

/// A continuation that few symbols have.
#[derive(Clone, Copy)]
pub enum OutOfLine {
    Lifetime,
    FunctionQualifiers,
    DynBinder,
    BindingName,
    DynLifetime,
    Constant,
    Number,
    StrLiteral,
    Variant,
    Field,
}

impl Parser<'_, '_> {
    /// Performs a continuation that few symbols have, by a call.
    #[cfg_attr(not(debug_assertions), inline(always))]
    fn call_out_of_line<V: Output>(
        &mut self,
        continuation: OutOfLine,
        output: &mut V,
    ) -> Result<Continuation, StepError> {
        match continuation {
            OutOfLine::Lifetime => self.end_with_token(TokenKind::LifetimeIndex, output),
            OutOfLine::FunctionQualifiers => self.function_qualifiers(output),
            OutOfLine::DynBinder => self.dyn_binder(output),
            OutOfLine::BindingName => self.binding_name(output),
            OutOfLine::DynLifetime => self.dyn_lifetime(output),
            OutOfLine::Constant => self.constant(output),
            OutOfLine::Number => self.number(output),
            OutOfLine::StrLiteral => self.literal(output),
            OutOfLine::Variant => self.variant(),
            OutOfLine::Field => self.field(output),
        }
    }

    /// Performs a continuation that few symbols have.
    #[cfg_attr(not(debug_assertions), inline(always))]
    pub(super) fn out_of_line<V: Output>(
        &mut self,
        continuation: OutOfLine,
        output: &mut V,
    ) -> Result<Continuation, StepError> {
        // A copy: the results of other continuations need not be where this call writes its own.
        let next = self.call_out_of_line(continuation, output)?;
        Ok(next)
    }
}
