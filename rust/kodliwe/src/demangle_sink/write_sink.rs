// Made from crates/demangle_sink/src/write_sink.rt by packaging/crate/erase.py: edit that file instead.
//! A sink that writes to a writer.

use crate::demangle_sink::{SinkRefused, TextSink};
use std::io;
use std::io::Write;

/// A sink that passes each nonempty piece to a writer by one `write_all`. It stores the writer's
/// error and does not allocate. After an error, the number of bytes of the piece that the writer
/// took is unknown.
pub struct WriteSink<'w, W: Write> {
    out: &'w mut W,
    fault: Option<io::Error>,
}

impl<'w, W: Write> WriteSink<'w, W> {
    /// Returns a sink for this writer. It has not failed.
    pub fn new(out: &'w mut W) -> Self {
        WriteSink { out, fault: None }
    }

    /// Returns the writer's error. It is `Some` exactly if the sink has failed.
    #[cfg(feature = "stream")]
    pub fn into_fault(self) -> Option<io::Error> {
        let WriteSink { out: _, fault } = self;
        fault
    }

    /// Returns `Ok` if the sink has not failed.
    ///
    /// # Errors
    ///
    /// Returns the writer's error.
    #[cfg(feature = "stream")]
    pub fn into_result(self) -> io::Result<()> {
        let WriteSink { out: _, fault } = self;
        match fault {
            Some(fault) => Err(fault),
            None => Ok(()),
        }
    }
}

impl<'w, W: Write> TextSink for WriteSink<'w, W> {
    #[cfg_attr(not(debug_assertions), inline(always))]
    fn put(&mut self, s: &str) -> Result<(), SinkRefused> {
        if s.is_empty() {
            return Ok(());
        }
        match self.out.write_all(s.as_bytes()) {
            Ok(()) => Ok(()),
            Err(fault) => {
                self.fault = Some(fault);
                Err(SinkRefused)
            }
        }
    }

    fn is_failed(&self) -> bool {
        self.fault.is_some()
    }
}
