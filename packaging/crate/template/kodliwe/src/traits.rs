//! Traits of Rust's library for the sinks.
use crate::demangle_sink::{ArraySink, FmtSink, SinkRefused, SliceSink, TextSink};
use core::{error, fmt};

impl fmt::Display for SinkRefused {
    fn fmt(&self, f: &mut fmt::Formatter<'_>) -> fmt::Result {
        f.write_str("the sink refused a piece of text")
    }
}

impl error::Error for SinkRefused {}

impl<const N: usize> Default for ArraySink<N> {
    fn default() -> ArraySink<N> {
        ArraySink::new()
    }
}

impl<const N: usize> fmt::Debug for ArraySink<N> {
    fn fmt(&self, f: &mut fmt::Formatter<'_>) -> fmt::Result {
        f.debug_struct("ArraySink")
            .field("text", &self.as_str())
            .field("is_failed", &self.is_failed())
            .finish()
    }
}

impl SliceSink<'_> {
    /// Returns whether the sink has taken no bytes.
    pub fn is_empty(&self) -> bool {
        self.len() == 0
    }
}

impl fmt::Debug for SliceSink<'_> {
    fn fmt(&self, f: &mut fmt::Formatter<'_>) -> fmt::Result {
        f.debug_struct("SliceSink")
            .field("len", &self.len())
            .field("is_failed", &self.is_failed())
            .finish_non_exhaustive()
    }
}

impl<W: fmt::Write> fmt::Debug for FmtSink<'_, W> {
    fn fmt(&self, f: &mut fmt::Formatter<'_>) -> fmt::Result {
        f.debug_struct("FmtSink")
            .field("is_failed", &self.is_failed())
            .finish_non_exhaustive()
    }
}

#[cfg(feature = "std")]
impl<W: std::io::Write> fmt::Debug for crate::WriteSink<'_, W> {
    fn fmt(&self, f: &mut fmt::Formatter<'_>) -> fmt::Result {
        f.debug_struct("WriteSink")
            .field("is_failed", &self.is_failed())
            .finish_non_exhaustive()
    }
}
