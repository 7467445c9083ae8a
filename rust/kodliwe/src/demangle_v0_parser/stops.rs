// Made from crates/demangle_v0_parser/src/stops.rt by packaging/crate/erase.py: edit that file instead.
//! Where a parse stops.
use crate::demangle_v0_parser::{Continuation, State};

/// A checkpoint: a continuation and its state. The symbol and the frames are kept elsewhere.
#[derive(Clone, Copy)]
pub struct Checkpoint {
    pub continuation: Continuation,
    pub state: State,
}

/// The rest that is left to print when the stack is full or the fuel is used up.
#[derive(Clone, Copy)]
pub enum Unfinished {
    /// The rest is that of the parser and its frames.
    Printing,
    /// The same, and the parser is in a part that is not printed, which began above that many frames.
    /// After the part, printing continues at the checkpoint.
    Skipping(usize, Checkpoint),
}

/// Why a parse without output stopped.
#[derive(Clone, Copy)]
pub enum ReadOutcome {
    /// Nothing is left to parse.
    Complete,
    /// The stack is full.
    StackFull,
    /// The parser found an error.
    Failed,
}
