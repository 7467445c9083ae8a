// Made from crates/demangle_v0_parser/src/backrefs.rt by packaging/crate/erase.py: edit that file instead.
//! Back references, whose target is a path, type or constant before them.

use crate::demangle_v0_parser::frames::Frame;
use crate::demangle_v0_parser::parse::Parser;
use crate::demangle_v0_parser::targets::target_of;
use crate::demangle_v0_parser::{Continuation, StepError};
use crate::demangle_v0_tokens::backref::{BackrefOutcome, read_backref};
use crate::demangle_v0_tokens::output::Output;

impl Parser<'_, '_> {
    /// Returns the number of bytes from a place to the end of the symbol, or `None` after an error.
    #[cfg_attr(not(debug_assertions), inline(always))]
    fn bytes_after(&self, place: Option<usize>) -> Option<usize> {
        place.map(|place| self.source.symbol.len().saturating_sub(place))
    }

    /// Reads a back reference after its `B`, and continues at its target if `output` prints. Fails
    /// if `output` allows fewer bytes to be read again than those after the target, and one more.
    ///
    /// `unit` is the continuation at which the target begins. If its text is looked up, the target is
    /// next. The frame on top of the stack then has the place after the reference.
    #[cfg_attr(not(debug_assertions), inline(always))]
    pub(super) fn follow_backref<V: Output>(
        &mut self,
        unit: Continuation,
        output: &mut V,
    ) -> Result<Continuation, StepError> {
        let backref = read_backref(self.source.symbol, self.state.depth_left, self.state.place);
        match backref {
            BackrefOutcome::NotFollowed(pending_text) => Err(StepError::Abort(pending_text)),
            BackrefOutcome::Target(target, next) => {
                self.state.is_bracket_open = false;
                // Validation does not follow references, and neither does the Rust crate. If it
                // did, its time could double with each reference.
                if !output.is_printing() {
                    self.state.place = Some(next);
                    return Ok(Continuation::End);
                }
                output.follow(self.source.symbol.len().saturating_sub(target))?;
                let frame = self.state.frame(Continuation::AfterBackref);
                self.stack.push(Frame {
                    number: next as u128,
                    ..frame
                });
                self.state.depth_left -= 1;
                self.state.place = Some(target);
                self.fuel.enter(target, next);
                if output.looks_up() {
                    return Ok(target_of(unit));
                }
                Ok(unit)
            }
        }
    }

    /// Continues after a back reference, whose target was printed. Gives back to `output` the bytes
    /// after the target's end.
    #[cfg_attr(not(debug_assertions), inline(always))]
    pub(super) fn after_backref<V: Output>(&mut self, output: &mut V) -> Continuation {
        let after = self.state.lifetimes as usize;
        let end = self.place();
        output.give_back(self.bytes_after(end));
        self.fuel.leave(end, after);
        self.state.place = Some(after);
        Continuation::End
    }
}
