// Made from crates/demangle_v0_parser/src/impls.rt by packaging/crate/erase.py: edit that file instead.
//! Continuations of the paths of impls, and of self types.

use crate::demangle_v0_parser::parse::Parser;
use crate::demangle_v0_parser::{Continuation, StepError};
use crate::demangle_v0_tokens::fixed_texts::FixedText;

impl Parser<'_, '_> {
    /// Reads the disambiguator of an impl, after its `M`, or its `X` if the impl is of a trait.
    #[cfg_attr(not(debug_assertions), inline(always))]
    pub(super) fn impl_disambiguator(&mut self, is_trait: bool) -> Result<Continuation, StepError> {
        let Some(at) = self.state.place else {
            return Err(StepError::Abort(FixedText::AfterError));
        };
        // The disambiguator distinguishes the impls of a module, and is not printed.
        let Ok(next) = self.source.symbol.after_disambiguator(at) else {
            return Err(StepError::Abort(FixedText::Invalid));
        };
        self.state.place = Some(next);
        if is_trait {
            return Ok(Continuation::TraitImplPath);
        }
        Ok(Continuation::InherentImplPath)
    }

    /// Starts the impl's own path during validation. The printing loop skips that path instead.
    #[cfg_attr(not(debug_assertions), inline(always))]
    pub(super) fn read_impl_path(&mut self, is_trait: bool) -> Continuation {
        let next = if is_trait {
            Continuation::TraitSelfType
        } else {
            Continuation::InherentSelfType
        };
        self.push(next);
        self.state.in_value = false;
        Continuation::Path
    }

    /// Queues `<` and starts the self type, which is followed by a trait or by `>`.
    #[cfg_attr(not(debug_assertions), inline(always))]
    pub(super) fn self_type(&mut self, is_trait: bool) -> Continuation {
        self.put(FixedText::Less);
        if is_trait {
            self.push(Continuation::AsTrait);
            return Continuation::Type;
        }
        self.push(Continuation::CloseAngle);
        Continuation::Type
    }

    /// Queues ` as ` and starts the trait, which is followed by `>`.
    #[cfg_attr(not(debug_assertions), inline(always))]
    pub(super) fn as_trait(&mut self) -> Continuation {
        self.push(Continuation::CloseAngle);
        self.put(FixedText::AsTrait);
        self.state.in_value = false;
        Continuation::Path
    }
}
