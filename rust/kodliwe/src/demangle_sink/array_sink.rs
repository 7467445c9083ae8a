// Made from crates/demangle_sink/src/array_sink.rt by packaging/crate/erase.py: edit that file instead.
//! A sink that stores the text in the value itself.

use crate::demangle_sink::{SinkRefused, TextSink};
use crate::support::arrayvec::ArrayString;

/// A text of at most `N` bytes, stored in the value itself. A piece that does not fit is rejected,
/// and the text taken before stays.
pub struct ArraySink<const N: usize> {
    text: ArrayString<N>,
    failed: bool,
}

impl<const N: usize> ArraySink<N> {
    /// Returns an empty sink that has not failed.
    pub fn new() -> Self {
        ArraySink {
            text: ArrayString::new(),
            failed: false,
        }
    }

    /// Returns the text that the sink has taken.
    pub fn as_str(&self) -> &str {
        self.text.as_str()
    }
}

impl<const N: usize> TextSink for ArraySink<N> {
    fn put(&mut self, s: &str) -> Result<(), SinkRefused> {
        if s.len() > self.text.remaining_capacity() {
            self.failed = true;
            return Err(SinkRefused);
        }
        self.text.push_str(s);
        Ok(())
    }

    fn is_failed(&self) -> bool {
        self.failed
    }
}
