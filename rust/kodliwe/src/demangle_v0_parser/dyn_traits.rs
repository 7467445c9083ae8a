// Made from crates/demangle_v0_parser/src/dyn_traits.rt by packaging/crate/erase.py: edit that file instead.
//! Continuations of trait objects, which are `dyn` types.

use crate::demangle_v0_parser::lists::separator;
use crate::demangle_v0_parser::parse::Parser;
use crate::demangle_v0_parser::{Continuation, StepError};
use crate::demangle_v0_tokens::fixed_texts::FixedText;
use crate::demangle_v0_tokens::output::Output;
use crate::demangle_v0_tokens::token::TokenKind;

impl Parser<'_, '_> {
    /// Queues the `dyn ` of a dyn type, after its `D`. The binder of its traits follows.
    #[cfg_attr(not(debug_assertions), inline(always))]
    pub(super) fn dyn_type(&mut self) -> Continuation {
        // The lifetime of the type follows the traits, outside their binder. So the frame has only
        // the lifetimes that are in scope without it.
        self.push(Continuation::DynLifetime);
        self.put(FixedText::Dyn);
        Continuation::DynBinder
    }

    /// Reads the binder of dyn traits, and prints its lifetimes.
    ///
    /// The traits follow. If there is no binder, the same step starts the first of them.
    #[inline(never)]
    pub(super) fn dyn_binder<V: Output>(
        &mut self,
        output: &mut V,
    ) -> Result<Continuation, StepError> {
        let at = self.state.place_or_abort()?;
        let (number, next) = self.source.symbol.opt_integer_62(b'G', at)?;
        self.state.place = Some(next);
        if number == 0 {
            return Ok(self.dyn_trait(true));
        }
        self.bind_lifetimes(number, output)?;
        Ok(Continuation::FirstDynTrait)
    }

    /// Starts the next dyn trait, or ends the traits.
    ///
    /// Queues the ` + ` before a trait that is not the first.
    #[cfg_attr(not(debug_assertions), inline(always))]
    pub(super) fn dyn_trait(&mut self, is_first: bool) -> Continuation {
        if self.ends_list() {
            self.state.is_bracket_open = false;
            return Continuation::End;
        }
        self.push(Continuation::Bindings);
        self.state.pending_text = separator(is_first, FixedText::Plus);
        Continuation::TraitPath
    }

    /// Starts the path of a dyn trait, which may be a back reference.
    ///
    /// If the path has arguments, their bracket stays open for the bindings that may follow.
    #[cfg_attr(not(debug_assertions), inline(always))]
    pub(super) fn trait_path<V: Output>(
        &mut self,
        output: &mut V,
    ) -> Result<Continuation, StepError> {
        let at = self.state.place_or_abort()?;
        if self.source.symbol.is_at(b'B', at) {
            self.state.place = Some(at + 1);
            return self.follow_backref(Continuation::TraitPath, output);
        }
        self.state.in_value = false;
        if self.source.symbol.is_at(b'I', at) {
            self.state.place = Some(at + 1);
            self.push(Continuation::OpenTraitArguments);
            return Ok(Continuation::Path);
        }
        Ok(Continuation::Path)
    }

    /// Starts the next argument of a dyn trait path, or ends the arguments.
    ///
    /// Queues the `, ` before an argument that is not the first. After the last one the bracket is
    /// still open.
    #[cfg_attr(not(debug_assertions), inline(always))]
    pub(super) fn trait_argument(&mut self, is_first: bool) -> Continuation {
        let Some(at) = self.element_place() else {
            self.state.is_bracket_open = true;
            return Continuation::End;
        };
        self.push(Continuation::NextTraitArgument);
        self.state.pending_text = separator(is_first, FixedText::Comma);
        self.argument(at)
    }

    /// Queues the `_` for the arguments of a dyn trait path, which were read. The bracket stays
    /// open.
    #[cfg_attr(not(debug_assertions), inline(always))]
    pub(super) fn folded_trait_arguments(&mut self) -> Continuation {
        self.put(FixedText::Placeholder);
        self.state.is_bracket_open = true;
        Continuation::End
    }

    /// Reads the lifetime of a dyn type, and prints it after a ` + ` unless it is erased.
    #[inline(never)]
    pub(super) fn dyn_lifetime<V: Output>(
        &mut self,
        output: &mut V,
    ) -> Result<Continuation, StepError> {
        self.end_with_token(TokenKind::DynLifetime, output)
    }
}
