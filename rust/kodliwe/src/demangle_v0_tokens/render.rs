// Made from crates/demangle_v0_tokens/src/render.rt by packaging/crate/erase.py: edit that file instead.
//! Prints tokens, piece by piece.

use crate::demangle_sink::{SinkRefused, SizeLimitedFmtAdapter, TextSink, put_each};
use crate::demangle_v0_tokens::fixed_texts::text;
use crate::demangle_v0_tokens::render::names::NamespacedName;
use crate::demangle_v0_tokens::source::Source;
use crate::demangle_v0_tokens::token::Token;

use crate::demangle_symbol::literal::{put_char_literal, put_string_literal};

mod functions;
mod lifetimes;
mod names;
mod numbers;

use lifetimes::{put_binder, put_lifetime, put_prefixed_lifetime, put_spaced_lifetime};

impl Source<'_> {
    /// Prints a token, piece by piece.
    ///
    /// # Errors
    ///
    /// Returns `SinkRefused` if the sink or the size limit rejects a piece. No later piece is sent.
    #[cfg_attr(not(debug_assertions), inline(always))]
    pub fn render<S: TextSink>(
        &self,
        token: &Token,
        out: &mut SizeLimitedFmtAdapter<'_, S>,
    ) -> Result<(), SinkRefused> {
        match token {
            Token::Nothing => Ok(()),
            Token::Fixed(fixed_text) => out.put(text(*fixed_text)),
            Token::CrateName(name, number) => self.put_crate_name(name, *number, out),
            Token::FieldName(name) => name.write_to(self.symbol, out),
            Token::NestedName(namespace, number, ident) => {
                let name = NamespacedName {
                    namespace: *namespace,
                    number: *number,
                    ident: *ident,
                };
                self.put_nested_name(name, out)
            }
            Token::NameAfterError => put_each(&["::", "?"], out),
            Token::Lifetime(None) => put_each(&["'", "_"], out),
            Token::Lifetime(Some(number)) => put_lifetime(*number, out),
            Token::LifetimeError => put_each(&["'", "{invalid syntax}"], out),
            Token::SpacedLifetime(number) => put_spaced_lifetime(*number, out),
            Token::SpacedLifetimeError => put_each(&["'", "{invalid syntax}", " "], out),
            Token::DynLifetime(number) => put_prefixed_lifetime(" + ", *number, out),
            Token::DynLifetimeError => put_each(&[" + ", "'", "{invalid syntax}"], out),
            Token::FunctionQualifiers(is_unsafe, abi) => {
                self.put_function_qualifiers(*is_unsafe, *abi, out)
            }
            Token::Number(value, nibbles, tag) => {
                self.put_number_constant(*value, *nibbles, *tag, out)
            }
            Token::Character(c) => put_char_literal(*c, out),
            Token::StrLiteral(nibbles) => put_string_literal(self.symbol, *nibbles, out),
            Token::Binder(first, count) => put_binder(*first, *count, out),
            Token::BindingName(name) => self.put_binding(name, out),
        }
    }
}
