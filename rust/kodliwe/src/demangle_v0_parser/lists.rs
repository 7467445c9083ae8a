// Made from crates/demangle_v0_parser/src/lists.rt by packaging/crate/erase.py: edit that file instead.
//! Lists: where they end, and what separates their elements.

use crate::demangle_v0_parser::parse::Parser;
use crate::demangle_v0_tokens::fixed_texts::FixedText;

/// Returns the text before an element: none before the first.
#[cfg_attr(not(debug_assertions), inline(always))]
pub(super) fn separator(is_first: bool, pending_text: FixedText) -> Option<FixedText> {
    if is_first { None } else { Some(pending_text) }
}

impl Parser<'_, '_> {
    /// Returns the place of the next element of a list. Returns `None` if the list ends, and reads
    /// the `E` after it.
    ///
    /// A list also ends if parsing has failed, so that what follows the list is printed.
    #[cfg_attr(not(debug_assertions), inline(always))]
    pub(super) fn element_place(&mut self) -> Option<usize> {
        let at = self.state.place?;
        if !self.source.symbol.is_at(b'E', at) {
            return Some(at);
        }
        self.state.place = Some(at + 1);
        None
    }

    /// Returns whether a list ends, and reads the `E` after it, as `element_place` does.
    #[cfg_attr(not(debug_assertions), inline(always))]
    pub(super) fn ends_list(&mut self) -> bool {
        self.element_place().is_none()
    }
}
