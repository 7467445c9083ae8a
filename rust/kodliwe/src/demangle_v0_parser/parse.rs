// Made from crates/demangle_v0_parser/src/parse.rt by packaging/crate/erase.py: edit that file instead.
//! The parser, and the methods that the productions share.

use crate::demangle_symbol::cursor::MAX_DEPTH;
use crate::demangle_v0_parser::frames::{Frame, FrameStack, PackedFrame};
use crate::demangle_v0_parser::fuel::Fuel;
use crate::demangle_v0_parser::{Continuation, State, StepError};
use crate::demangle_v0_tokens::fixed_texts::FixedText;
use crate::demangle_v0_tokens::source::Source;

impl State {
    /// Returns the checkpoint before the path at a place.
    #[cfg_attr(not(debug_assertions), inline(always))]
    pub(crate) fn at_path(place: usize) -> Self {
        State {
            in_value: true,
            letter: 0,
            depth_left: MAX_DEPTH as u16,
            lifetimes: 0,
            place: Some(place),
            is_bracket_open: false,
            pending_text: None,
        }
    }
}

/// A parse of a symbol: what is next, and the frames with which it continues after that. The output
/// is a parameter of the methods that print.
pub struct Parser<'m, 'f> {
    pub source: Source<'m>,
    pub state: State,
    pub stack: FrameStack<'f>,
    /// The fuel of a print that may be in vain. No other parse stops.
    pub fuel: Fuel,
    pub continuation: Continuation,
}

impl<'m, 'f> Parser<'m, 'f> {
    /// Returns a parser of the path at a place, whose frames go into this memory.
    #[cfg_attr(not(debug_assertions), inline(always))]
    pub fn at_path(source: Source<'m>, place: usize, memory: &'f mut [PackedFrame]) -> Self {
        Parser {
            source,
            continuation: Continuation::Path,
            state: State::at_path(place),
            stack: FrameStack::new(memory),
            fuel: Fuel::none(),
        }
    }

    /// Returns a parser in the same state as this one, with its frames copied into larger memory.
    #[cfg_attr(not(debug_assertions), inline(always))]
    pub fn in_larger_stack<'g>(&mut self, memory: &'g mut [PackedFrame]) -> Parser<'m, 'g> {
        Parser {
            source: self.source,
            continuation: self.continuation,
            state: self.state,
            stack: FrameStack::with_frames_of(&self.stack, memory),
            fuel: self.fuel,
        }
    }
}

impl Parser<'_, '_> {
    /// Continues with the path at a place.
    #[cfg_attr(not(debug_assertions), inline(always))]
    pub fn start_path(&mut self, place: usize) {
        self.continuation = Continuation::Path;
        self.state = State::at_path(place);
    }

    /// Returns the place of the next byte, or `None` after an error.
    #[cfg_attr(not(debug_assertions), inline(always))]
    pub fn place(&self) -> Option<usize> {
        self.state.place
    }

    /// Pushes a frame with which the parser continues after what is read next.
    #[cfg_attr(not(debug_assertions), inline(always))]
    pub(super) fn push(&mut self, continuation: Continuation) {
        self.stack.push(self.state.frame(continuation));
    }

    /// Pushes such a frame with another letter.
    #[cfg_attr(not(debug_assertions), inline(always))]
    pub(super) fn push_lettered(&mut self, continuation: Continuation, letter: u8) {
        let frame = self.state.frame(continuation);
        self.stack.push(Frame { letter, ..frame });
    }

    /// Queues a fixed text, which is printed at the end of the step.
    #[cfg_attr(not(debug_assertions), inline(always))]
    pub(super) fn put(&mut self, pending_text: FixedText) {
        self.state.pending_text = Some(pending_text);
    }

    /// Queues the fixed text with which the production ends.
    #[cfg_attr(not(debug_assertions), inline(always))]
    pub(super) fn end_with(&mut self, pending_text: FixedText) -> Continuation {
        self.state.pending_text = Some(pending_text);
        self.state.is_bracket_open = false;
        Continuation::End
    }

    /// Raises the depth. Fails if it has reached the limit.
    #[cfg_attr(not(debug_assertions), inline(always))]
    pub(super) fn enter(&mut self) -> Result<(), StepError> {
        self.state.depth_left = self.state.nested_depth()?;
        Ok(())
    }
}
