// Made from crates/rustc_demangle/src/stream/buffer_sink.rt by packaging/crate/erase.py: edit that file instead.
//! A sink that appends to a `GrowingBuffer`.

use crate::demangle_sink::{SinkRefused, TextSink};
use crate::piece_buffer::GrowingBuffer;

/// A sink that appends each piece to a buffer. It fails if the buffer can't hold a piece. No room is
/// certain, since memory may fail.
pub(super) struct BufferSink<'h> {
    held: &'h mut GrowingBuffer,
    failed: bool,
}

impl<'h> BufferSink<'h> {
    /// Returns a sink that appends to this buffer. It has not failed.
    pub(super) fn new(held: &'h mut GrowingBuffer) -> Self {
        BufferSink {
            held,
            failed: false,
        }
    }
}

impl<'h> TextSink for BufferSink<'h> {
    #[cfg_attr(not(debug_assertions), inline(always))]
    fn put(&mut self, s: &str) -> Result<(), SinkRefused> {
        if self.held.push(s.as_bytes()) {
            return Ok(());
        }
        self.failed = true;
        Err(SinkRefused)
    }

    fn is_failed(&self) -> bool {
        self.failed
    }

    #[cfg_attr(not(debug_assertions), inline(always))]
    fn can_copy(&self) -> bool {
        true
    }

    #[cfg_attr(not(debug_assertions), inline(always))]
    fn held_len(&self) -> Option<usize> {
        Some(self.held.len())
    }

    #[cfg_attr(not(debug_assertions), inline(always))]
    fn put_again(&mut self, start: usize, len: usize) -> bool {
        self.held.push_again(start, len)
    }
}
