// Made from crates/demangle_sink/src/fmt_sink.rt by packaging/crate/erase.py: edit that file instead.
//! A sink that writes to a formatter.

use crate::demangle_sink::{SinkRefused, TextSink};
use core::fmt;

/// A sink that passes each nonempty piece to a formatter.
pub struct FmtSink<'f, W: fmt::Write> {
    out: &'f mut W,
    failed: bool,
}

impl<'f, W: fmt::Write> FmtSink<'f, W> {
    /// Returns a sink for this formatter. It has not failed.
    pub fn new(out: &'f mut W) -> Self {
        FmtSink { out, failed: false }
    }
}

impl<'f, W: fmt::Write> TextSink for FmtSink<'f, W> {
    fn put(&mut self, s: &str) -> Result<(), SinkRefused> {
        if s.is_empty() {
            return Ok(());
        }
        match self.out.write_str(s) {
            Ok(()) => Ok(()),
            Err(_) => {
                self.failed = true;
                Err(SinkRefused)
            }
        }
    }

    fn is_failed(&self) -> bool {
        self.failed
    }
}
