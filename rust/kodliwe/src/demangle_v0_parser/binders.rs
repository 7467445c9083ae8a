// Made from crates/demangle_v0_parser/src/binders.rt by packaging/crate/erase.py: edit that file instead.
//! Binders: lifetimes that a function type or dyn traits bring into scope.

use crate::demangle_sink::SinkRefused;
use crate::demangle_v0_parser::parse::Parser;
use crate::demangle_v0_tokens::output::Output;
use crate::demangle_v0_tokens::token::Token;

impl Parser<'_, '_> {
    /// Brings `number` further lifetimes into scope, and prints them.
    ///
    /// Fails if the output does.
    #[cfg_attr(not(debug_assertions), inline(always))]
    pub(super) fn bind_lifetimes<V: Output>(
        &mut self,
        number: u64,
        output: &mut V,
    ) -> Result<(), SinkRefused> {
        let token = Token::Binder(self.state.lifetimes, number);
        self.state.lifetimes += u128::from(number);
        self.emit(&token, output)
    }
}
