// Made from crates/demangle_v0/src/stacks.rt by packaging/crate/erase.py: edit that file instead.
//! How many frames the stacks have.

/// The number of frames of a first stack. It is enough for all symbols that are not deep.
pub const SHORT_STACK: usize = 32;

/// The number of frames of a second stack. It takes 8 KiB, and the last takes 64 KiB.
pub const MIDDLE_STACK: usize = 512;

/// The number of frames of a last stack. No symbol needs more.
pub const FULL_STACK: usize = 4096;
