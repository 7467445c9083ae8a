// Made from crates/demangle_v0_parser/src/tuples.rt by packaging/crate/erase.py: edit that file instead.
//! Continuations of tuple types.

use crate::demangle_v0_parser::Continuation;
use crate::demangle_v0_parser::parse::Parser;
use crate::demangle_v0_tokens::fixed_texts::FixedText;

impl Parser<'_, '_> {
    /// Queues the `(` of a tuple, after its `T`.
    #[cfg_attr(not(debug_assertions), inline(always))]
    pub(super) fn tuple_type(&mut self) -> Continuation {
        self.put(FixedText::OpenParen);
        Continuation::FirstTupleType
    }

    /// Starts the first type of a tuple, or ends the tuple.
    #[cfg_attr(not(debug_assertions), inline(always))]
    pub(super) fn first_tuple_type(&mut self) -> Continuation {
        if self.ends_list() {
            return self.end_with(FixedText::CloseParen);
        }
        self.push(Continuation::SecondTupleType);
        Continuation::Type
    }

    /// Starts the second type of a tuple, or queues the comma after the only one.
    #[cfg_attr(not(debug_assertions), inline(always))]
    pub(super) fn second_tuple_type(&mut self) -> Continuation {
        if self.ends_list() {
            // `(T,)` is a tuple. `(T)` would be the type `T` in parentheses.
            self.put(FixedText::TrailingComma);
            return Continuation::CloseParen;
        }
        self.push(Continuation::NextTupleType);
        self.put(FixedText::Comma);
        Continuation::Type
    }

    /// Starts a further type of a tuple, or ends the tuple.
    #[cfg_attr(not(debug_assertions), inline(always))]
    pub(super) fn next_tuple_type(&mut self) -> Continuation {
        if self.ends_list() {
            return self.end_with(FixedText::CloseParen);
        }
        self.push(Continuation::NextTupleType);
        self.put(FixedText::Comma);
        Continuation::Type
    }
}
