// Made from crates/demangle_v0_parser/src/constant_lists.rt by packaging/crate/erase.py: edit that file instead.
//! Continuations of lists of constants: arrays, tuples and the fields of variants.

use crate::demangle_v0_parser::Continuation;
use crate::demangle_v0_parser::parse::Parser;
use crate::demangle_v0_tokens::fixed_texts::FixedText;

/// A kind of list whose elements are constants.
#[derive(Clone, Copy)]
pub enum ConstantList {
    Array,
    Tuple,
    TupleVariant,
    Fields,
}

impl ConstantList {
    /// Returns the text that closes the list.
    #[cfg_attr(not(debug_assertions), inline(always))]
    fn close(self) -> FixedText {
        match self {
            ConstantList::Array => FixedText::CloseBracket,
            ConstantList::Tuple | ConstantList::TupleVariant => FixedText::CloseParen,
            ConstantList::Fields => FixedText::CloseStruct,
        }
    }

    /// Returns the continuation that reads an element.
    #[cfg_attr(not(debug_assertions), inline(always))]
    fn element(self) -> Continuation {
        match self {
            ConstantList::Fields => Continuation::Field,
            _ => Continuation::Constant,
        }
    }

    /// Returns the continuation after the first element.
    #[cfg_attr(not(debug_assertions), inline(always))]
    fn after_first(self) -> Continuation {
        match self {
            ConstantList::Array => Continuation::NextArrayConstant,
            ConstantList::Tuple => Continuation::SecondTupleConstant,
            ConstantList::TupleVariant => Continuation::NextVariantConstant,
            ConstantList::Fields => Continuation::NextField,
        }
    }

    /// Returns the continuation after a further element.
    #[cfg_attr(not(debug_assertions), inline(always))]
    fn after_next(self) -> Continuation {
        match self {
            ConstantList::Array => Continuation::NextArrayConstant,
            ConstantList::Tuple => Continuation::NextTupleConstant,
            ConstantList::TupleVariant => Continuation::NextVariantConstant,
            ConstantList::Fields => Continuation::NextField,
        }
    }
}

impl Parser<'_, '_> {
    /// Starts the first element of a list, or closes the list if it has ended.
    #[cfg_attr(not(debug_assertions), inline(always))]
    pub(super) fn first_list_constant(&mut self, list: ConstantList) -> Continuation {
        if self.ends_list() {
            return self.end_with(list.close());
        }
        self.push(list.after_first());
        self.state.in_value = true;
        list.element()
    }

    /// Starts a further element after a comma, or closes the list if it has ended.
    #[cfg_attr(not(debug_assertions), inline(always))]
    pub(super) fn next_list_constant(&mut self, list: ConstantList) -> Continuation {
        if self.ends_list() {
            return self.end_with(list.close());
        }
        self.push(list.after_next());
        self.put(FixedText::Comma);
        self.state.in_value = true;
        list.element()
    }

    /// Starts the second element of a tuple, or queues the comma that follows a single element.
    #[cfg_attr(not(debug_assertions), inline(always))]
    pub(super) fn second_tuple_constant(&mut self) -> Continuation {
        if self.ends_list() {
            self.put(FixedText::TrailingComma);
            return Continuation::CloseParen;
        }
        self.push(Continuation::NextTupleConstant);
        self.put(FixedText::Comma);
        self.state.in_value = true;
        Continuation::Constant
    }
}
