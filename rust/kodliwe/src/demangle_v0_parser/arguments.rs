// Made from crates/demangle_v0_parser/src/arguments.rt by packaging/crate/erase.py: edit that file instead.
//! Continuations of generic arguments.

use crate::demangle_v0_parser::Continuation;
use crate::demangle_v0_parser::lists::separator;
use crate::demangle_v0_parser::parse::Parser;
use crate::demangle_v0_tokens::fixed_texts::FixedText;

impl Parser<'_, '_> {
    /// Queues the `<` of a path's generic arguments, or `::` before it in value position.
    #[cfg_attr(not(debug_assertions), inline(always))]
    pub(super) fn generic(&mut self) -> Continuation {
        if self.state.in_value {
            self.put(FixedText::PathSeparator);
            return Continuation::OpenArguments;
        }
        self.put(FixedText::Less);
        Continuation::FirstArgument
    }

    /// Starts the first or a further generic argument of a path, or ends their list.
    ///
    /// A parse that prints folded arguments does not read them here, but as it reads an impl path.
    #[cfg_attr(not(debug_assertions), inline(always))]
    pub(super) fn arguments(&mut self, is_first: bool) -> Continuation {
        let Some(at) = self.element_place() else {
            return self.end_with(FixedText::Greater);
        };
        self.push(Continuation::NextArgument);
        self.state.pending_text = separator(is_first, FixedText::Comma);
        self.argument(at)
    }

    /// Reads the tag of a generic argument at `at`, the current offset: `L` for a lifetime, `K` for
    /// a constant, and none for a type.
    #[cfg_attr(not(debug_assertions), inline(always))]
    pub(super) fn argument(&mut self, at: usize) -> Continuation {
        self.state.in_value = false;
        if self.source.symbol.is_at(b'L', at) {
            self.state.place = Some(at + 1);
            return Continuation::Lifetime;
        }
        if self.source.symbol.is_at(b'K', at) {
            self.state.place = Some(at + 1);
            return Continuation::Constant;
        }
        Continuation::Type
    }
}
