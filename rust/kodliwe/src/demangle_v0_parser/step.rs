// Made from crates/demangle_v0_parser/src/step.rt by packaging/crate/erase.py: edit that file instead.
//! Steps: each runs a continuation, prints the fixed text that it queued, and returns what is next.

use crate::demangle_sink::SinkRefused;
use crate::demangle_v0_parser::frames::Frame;
use crate::demangle_v0_parser::parse::Parser;
use crate::demangle_v0_parser::{Continuation, State, StepError};
use crate::demangle_v0_tokens::output::Output;
use crate::demangle_v0_tokens::token::Token;

impl State {
    /// Restores the state that a frame saved.
    #[cfg_attr(not(debug_assertions), inline(always))]
    fn resume(&mut self, frame: Frame) {
        self.in_value = frame.in_value;
        self.letter = frame.letter;
        self.depth_left = frame.depth_left;
        self.lifetimes = frame.number;
    }
}

impl Parser<'_, '_> {
    /// Prints the fixed text that a continuation queued, if there is one.
    #[cfg_attr(not(debug_assertions), inline(always))]
    fn flush_pending_text<V: Output>(&mut self, output: &mut V) -> Result<(), SinkRefused> {
        let pending_text = self.state.pending_text;
        // Most iterations leave none. A parse without output clears it untested, which costs less.
        if pending_text.is_some() || !output.is_printing() {
            self.state.pending_text = None;
        }
        match pending_text {
            None => Ok(()),
            Some(pending_text) => output.emit(&self.source, &Token::Fixed(pending_text)),
        }
    }

    /// Runs a continuation, which may read and print a token, and prints the fixed text that it
    /// queued. Returns the next continuation. A path is run together with those that are nested in
    /// one another, and with their names, one step after another.
    ///
    /// Fails if the output does. A parse that prints never runs an impl path or folded arguments
    /// here, because those are not printed.
    #[cfg_attr(not(debug_assertions), inline(always))]
    pub fn steps<V: Output>(
        &mut self,
        continuation: Continuation,
        output: &mut V,
    ) -> Result<Continuation, SinkRefused> {
        match self.dispatch(continuation, output) {
            Ok(next) => {
                self.flush_pending_text(output)?;
                Ok(next)
            }
            Err(StepError::Abort(fault)) => {
                self.state.place = None;
                self.state.is_bracket_open = false;
                // A symbol is not accepted by printing after an error.
                self.fuel.use_up();
                output.emit_error(&self.source, &Token::Fixed(fault))?;
                Ok(Continuation::End)
            }
            Err(StepError::Sink) => Err(SinkRefused),
        }
    }

    /// Returns the next continuation. After the end of a production it is that of the frame on top,
    /// which is removed, or `None` if only `base` frames are left.
    #[cfg_attr(not(debug_assertions), inline(always))]
    pub fn resume(&mut self, base: usize, continuation: Continuation) -> Option<Continuation> {
        match continuation {
            Continuation::End => {
                if self.stack.len() <= base {
                    return None;
                }
                let frame = self.stack.pop()?;
                self.state.resume(frame);
                Some(frame.continuation)
            }
            other => Some(other),
        }
    }
}
