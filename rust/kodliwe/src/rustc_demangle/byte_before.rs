// Made from crates/rustc_demangle/src/byte_before.rt by packaging/crate/erase.py: edit that file instead.
//! What is before a text, and which part of it a run takes in.

use crate::rustc_demangle::runs::is_run_byte;
#[cfg(feature = "stream")]
use crate::rustc_demangle::runs::starts_run;

/// What is before a text.
#[derive(Clone, Copy)]
pub enum ByteBefore {
    /// Nothing, or a byte that is not a run byte. A run takes in a single `_` after it.
    Outside,
    /// A run byte.
    Inside,
}

// A filter calls some of these methods at each run. They are inlined, as each is a few instructions.
impl ByteBefore {
    /// Returns what a byte is for the text after it.
    #[cfg_attr(not(debug_assertions), inline(always))]
    fn of(byte: u8) -> Self {
        if is_run_byte(byte) {
            ByteBefore::Inside
        } else {
            ByteBefore::Outside
        }
    }

    /// Returns what is before the text that follows these bytes.
    #[cfg_attr(not(debug_assertions), inline(always))]
    pub(crate) fn after(self, text: &[u8]) -> Self {
        if text.is_empty() {
            self
        } else {
            ByteBefore::of(text[text.len() - 1])
        }
    }

    /// Returns whether this is outside of runs.
    #[cfg_attr(not(debug_assertions), inline(always))]
    pub(crate) fn is_outside(self) -> bool {
        matches!(self, ByteBefore::Outside)
    }

    /// Returns whether a candidate starts here: a run, or a run with the `_` that it takes in.
    #[cfg(feature = "stream")]
    #[cfg_attr(not(debug_assertions), inline(always))]
    pub(crate) fn starts_candidate(self, text: &[u8]) -> bool {
        starts_run(text)
            || (self.is_outside() && !text.is_empty() && text[0] == b'_' && starts_run(&text[1..]))
    }

    /// Returns the length of plain text before a run, without the `_` at its end that the run takes
    /// in.
    #[cfg_attr(not(debug_assertions), inline(always))]
    pub(crate) fn plain_len(self, text: &[u8]) -> usize {
        if text.is_empty() || text[text.len() - 1] != b'_' {
            return text.len();
        }
        let front = text.len() - 1;
        if self.after(&text[..front]).is_outside() {
            front
        } else {
            text.len()
        }
    }
}

/// Returns the length of the plain text before a run, without a single `_` at its end. The path of
/// the run takes the place of that `_` too.
///
/// The plain text starts where the whole text does, or after the run before it. A `_` is single if
/// it is the first byte or follows a byte that no run may have.
pub fn plain_len(plain: &[u8]) -> usize {
    ByteBefore::Outside.plain_len(plain)
}
