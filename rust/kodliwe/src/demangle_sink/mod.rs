// Made from crates/demangle_sink/src/lib.rt by packaging/crate/erase.py: edit that file instead.
//! Sinks take printed text, one piece at a time.

mod array_sink;
mod chars;
mod fmt_sink;
mod limit;
mod pieces;
mod slice_sink;
#[cfg(feature = "std")]
mod write_sink;

pub use array_sink::ArraySink;
pub use chars::{put_char, put_chars};
pub use fmt_sink::FmtSink;
pub use limit::{HeldText, Reread, SizeLimitedFmtAdapter, put_piece};
pub use pieces::put_each;
pub use slice_sink::SliceSink;
#[cfg(feature = "std")]
pub use write_sink::WriteSink;

/// The error of a sink that rejected a piece. The sink has failed and takes no further piece.
#[derive(Debug, Clone, Copy)]
pub struct SinkRefused;

/// Takes pieces of text until it rejects one.
///
/// An empty piece is always taken.
///
/// A sink that does not hold its text leaves out `can_copy`, `held_len` and `put_again`.
pub trait TextSink {
    /// Takes a piece.
    ///
    /// # Errors
    ///
    /// Returns `SinkRefused` if the sink rejects the piece. The sink has failed from then on.
    fn put(&mut self, s: &str) -> Result<(), SinkRefused>;

    /// Returns `true` if the sink has rejected a piece.
    fn is_failed(&self) -> bool;

    /// Returns `true` if the sink may take bytes again that it holds.
    #[cfg_attr(not(debug_assertions), inline(always))]
    fn can_copy(&self) -> bool {
        false
    }

    /// Returns the number of bytes that the sink holds, or `None` if it can't take them again.
    #[cfg_attr(not(debug_assertions), inline(always))]
    fn held_len(&self) -> Option<usize> {
        None
    }

    /// Takes `len` bytes again that the sink holds, from the byte `start` on. Returns `false`, and
    /// changes nothing, if it can't.
    #[cfg_attr(not(debug_assertions), inline(always))]
    fn put_again(&mut self, start: usize, len: usize) -> bool {
        // The default takes no bytes, wherever they are.
        let _ = (start, len);
        false
    }
}
