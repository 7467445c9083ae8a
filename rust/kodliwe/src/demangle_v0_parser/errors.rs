// Made from crates/demangle_v0_parser/src/errors.rt by packaging/crate/erase.py: edit that file instead.
//! The errors that end a step, and how `?` makes them.

use crate::demangle_sink::SinkRefused;
use crate::demangle_symbol::cursor::ParseError;
use crate::demangle_v0_parser::{State, StepError};
use crate::demangle_v0_tokens::fixed_texts::FixedText;

impl From<SinkRefused> for StepError {
    #[cfg_attr(not(debug_assertions), inline(always))]
    fn from(_refused: SinkRefused) -> StepError {
        StepError::Sink
    }
}

impl From<ParseError> for StepError {
    #[cfg_attr(not(debug_assertions), inline(always))]
    fn from(error: ParseError) -> StepError {
        match error {
            ParseError::Invalid => StepError::Abort(FixedText::Invalid),
            ParseError::RecursedTooDeep => StepError::Abort(FixedText::Recursion),
        }
    }
}

impl State {
    /// Returns the offset of the next byte. It fails after an error.
    #[cfg_attr(not(debug_assertions), inline(always))]
    pub(super) fn place_or_abort(&self) -> Result<usize, StepError> {
        self.place.ok_or(StepError::Abort(FixedText::AfterError))
    }

    /// Returns how many levels of nesting are allowed one level deeper. It fails if none is left.
    #[cfg_attr(not(debug_assertions), inline(always))]
    pub(super) fn nested_depth(&self) -> Result<u16, StepError> {
        self.depth_left
            .checked_sub(1)
            .ok_or(StepError::Abort(FixedText::Recursion))
    }
}
