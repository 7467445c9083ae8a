// Made from crates/demangle_v0_parser/src/names.rt by packaging/crate/erase.py: edit that file instead.
//! The names of crates and of nested paths, which are read and printed.

use crate::demangle_sink::SinkRefused;
use crate::demangle_symbol::cursor::{Ident, Symbol};
use crate::demangle_v0_parser::parse::Parser;
use crate::demangle_v0_parser::{Continuation, StepError};
use crate::demangle_v0_tokens::fixed_texts::FixedText;
use crate::demangle_v0_tokens::output::Output;
use crate::demangle_v0_tokens::token::Token;

/// Returns `true` if the names of a namespace are printed with their disambiguators.
#[cfg_attr(not(debug_assertions), inline(always))]
fn is_special(namespace: u8) -> bool {
    namespace.is_ascii_uppercase()
}

/// Returns whether a name is in Punycode, whose decoding is slow.
#[cfg_attr(not(debug_assertions), inline(always))]
fn is_encoded(name: &Ident) -> bool {
    name.punycode.from != name.punycode.to
}

/// Returns whether a token is the name of a field or of an associated type, and in Punycode.
#[cfg_attr(not(debug_assertions), inline(always))]
pub(super) fn has_encoded_name(token: &Token) -> bool {
    match token {
        Token::FieldName(name) | Token::BindingName(name) => is_encoded(name),
        _ => false,
    }
}

/// Reads a name after its disambiguator. Returns the name, the disambiguator and the place after
/// both, or `None` if they are not spelled there. The disambiguator is 0 if it is not needed.
#[cfg_attr(not(debug_assertions), inline(always))]
fn name_at(symbol: &Symbol<'_>, needs_number: bool, place: usize) -> Option<(Ident, u64, usize)> {
    let Ok((number, at)) = symbol.disambiguator_if(needs_number, place) else {
        return None;
    };
    let Ok((name, next)) = symbol.ident(at) else {
        return None;
    };
    Some((name, number, next))
}

impl Parser<'_, '_> {
    /// Reads and prints the name of a crate, which ends its path.
    #[cfg_attr(not(debug_assertions), inline(always))]
    pub(super) fn crate_name<V: Output>(
        &mut self,
        output: &mut V,
    ) -> Result<Continuation, StepError> {
        let at = self.state.place_or_abort()?;
        // A crate's disambiguator is its hash.
        let has_hash = self.source.form.include_hash;
        let named = name_at(self.source.symbol, has_hash, at);
        let (name, number, next) = named.ok_or(StepError::Abort(FixedText::Invalid))?;
        self.state.place = Some(next);
        self.state.is_bracket_open = false;
        self.fuel.pay_text(is_encoded(&name));
        self.emit(&Token::CrateName(name, number), output)?;
        Ok(Continuation::End)
    }

    /// Passes the text of a name after an error to the output.
    #[inline(never)]
    fn emit_name_after_error<V: Output>(&mut self, output: &mut V) -> Result<(), SinkRefused> {
        output.emit_error(&self.source, &Token::NameAfterError)
    }

    /// Prints `::` and that the name was not read, since its path has failed.
    #[cfg_attr(not(debug_assertions), inline(always))]
    fn name_after_error<V: Output>(&mut self, output: &mut V) -> Result<Continuation, StepError> {
        self.state.is_bracket_open = false;
        self.emit_name_after_error(output)?;
        Ok(Continuation::End)
    }

    /// Reads and prints the name after the path that it is in, which ends its own path.
    #[cfg_attr(not(debug_assertions), inline(always))]
    pub(super) fn nested_name<V: Output>(
        &mut self,
        output: &mut V,
    ) -> Result<Continuation, StepError> {
        let Some(at) = self.state.place else {
            return self.name_after_error(output);
        };
        let is_special = is_special(self.state.letter);
        let named = name_at(self.source.symbol, is_special, at);
        let (ident, number, next) = named.ok_or(StepError::Abort(FixedText::Invalid))?;
        self.state.place = Some(next);
        self.state.is_bracket_open = false;
        self.fuel.pay_text(is_encoded(&ident));
        let name = Token::NestedName(self.state.letter, number, ident);
        self.emit(&name, output)?;
        Ok(Continuation::End)
    }
}
