// Made from crates/demangle_v0/src/reading.rt by packaging/crate/erase.py: edit that file instead.
//! The loop that parses without output.

use crate::demangle_v0_parser::Continuation;
use crate::demangle_v0_parser::parse::Parser;
use crate::demangle_v0_parser::stops::ReadOutcome;
use crate::demangle_v0_tokens::output::NoOutput;

/// Reads without output until only the lowest `base` frames are left, the stack is full, or the
/// symbol has a syntax error.
pub fn read_steps(parser: &mut Parser<'_, '_>, base: usize) -> ReadOutcome {
    let mut continuation = parser.continuation;
    while parser.stack.has_room() {
        let Some(next) = parser.resume(base, continuation) else {
            parser.continuation = Continuation::End;
            return ReadOutcome::Complete;
        };
        match parser.steps(next, &mut NoOutput) {
            Ok(following) => continuation = following,
            Err(_) => return ReadOutcome::Failed,
        }
    }
    parser.continuation = continuation;
    ReadOutcome::StackFull
}
