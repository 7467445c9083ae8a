// Made from crates/demangle_v0_parser/src/nested_names.rt by packaging/crate/erase.py: edit that file instead.
//! Paths that are nested in one another. Their names are read and printed in a loop of their own,
//! without frames and without a step for each.

use crate::demangle_v0_parser::frames::Frame;
use crate::demangle_v0_parser::parse::Parser;
use crate::demangle_v0_parser::{Continuation, StepError};
use crate::demangle_v0_tokens::output::Output;

/// The letter of each nested path whose name is not special. Their own letters differ, but all of
/// them print their names alike.
const PLAIN_LETTER: u8 = b'v';

impl Parser<'_, '_> {
    /// Pushes the frames of `count` nested paths, one in another. `outer` levels of nesting are
    /// allowed before the first. No name of them is special.
    // Most other paths than that of a crate are in none, and need no call.
    #[cfg_attr(not(debug_assertions), inline(always))]
    pub(super) fn push_names(&mut self, count: u16, outer: u16) {
        if count > 0 {
            self.push_each_name(count, outer);
        }
    }

    /// Does the same as `push_names`.
    // It is called in several places, and is not inlined, so that the loop of printing stays small.
    #[inline(never)]
    fn push_each_name(&mut self, count: u16, outer: u16) {
        for done in 0..count {
            let frame = self.state.frame(Continuation::NestedName);
            self.stack.push(Frame {
                letter: PLAIN_LETTER,
                depth_left: outer - done - 1,
                ..frame
            });
        }
    }

    /// Reads and prints the names of `count` nested paths, one in another, after the path that they
    /// are in.
    #[cfg_attr(not(debug_assertions), inline(always))]
    fn plain_names<V: Output>(
        &mut self,
        count: u16,
        outer: u16,
        output: &mut V,
    ) -> Result<Continuation, StepError> {
        let mut left = count;
        while left > 0 {
            left -= 1;
            self.state.letter = PLAIN_LETTER;
            self.state.depth_left = outer - left - 1;
            if let Err(stop) = self.nested_name(output) {
                self.push_names(left, outer);
                return Err(stop);
            }
        }
        Ok(Continuation::End)
    }

    /// Reads and prints the names of `count` nested paths after the path that they are in, which
    /// was performed with this result.
    #[cfg_attr(not(debug_assertions), inline(always))]
    pub(super) fn names_after<V: Output>(
        &mut self,
        performed: Result<Continuation, StepError>,
        count: u16,
        outer: u16,
        output: &mut V,
    ) -> Result<Continuation, StepError> {
        match performed {
            Ok(_) => self.plain_names(count, outer, output),
            Err(stop) => {
                self.push_names(count, outer);
                Err(stop)
            }
        }
    }
}
