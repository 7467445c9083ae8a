// Made from crates/test_doubles/src/refusing_sink.rt by packaging/crate/erase.py: edit that file instead.
//! A sink that rejects a piece.

use crate::demangle_sink::{ArraySink, SinkRefused, TextSink};

/// Takes every empty piece, and rejects one of the nonempty ones. It stores the text that it took,
/// of at most 4,096 bytes.
pub struct RefusingSink {
    text: ArraySink<4096>,
    /// The number of nonempty pieces that are taken before the rejected one.
    left: usize,
    failed: bool,
}

impl RefusingSink {
    /// Returns a sink that rejects the nonempty piece with this number, counted from 1.
    pub fn new(number: usize) -> RefusingSink {
        RefusingSink {
            text: ArraySink::new(),
            left: number - 1,
            failed: false,
        }
    }

    /// Returns the text that the sink has taken.
    pub fn as_str(&self) -> &str {
        self.text.as_str()
    }
}

impl TextSink for RefusingSink {
    fn put(&mut self, s: &str) -> Result<(), SinkRefused> {
        if s.is_empty() {
            return Ok(());
        }
        if self.left == 0 || self.text.is_failed() {
            self.failed = true;
            return Err(SinkRefused);
        }
        self.left -= 1;
        match self.text.put(s) {
            Ok(()) => Ok(()),
            Err(refused) => {
                self.failed = true;
                Err(refused)
            }
        }
    }

    fn is_failed(&self) -> bool {
        self.failed
    }
}
