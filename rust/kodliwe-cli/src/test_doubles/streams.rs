// Made from crates/test_doubles/src/streams.rt by packaging/crate/erase.py: edit that file instead.
//! Readers and writers in memory, for tests. They fail on demand, or record their calls.
use crate::support::alloc::{AllocError, Global};
use crate::support::vec::Vec;
use std::io;
use std::io::{BufRead, ErrorKind, Read, Write};

/// The text of the errors of a `ChunkReader`.
pub const RESET: &str = "reset by the other side";

/// Returns its parts, one for each `fill_buf`. Fails after a given number of them, with a given
/// kind and the text `RESET`.
pub struct ChunkReader<'a> {
    parts: &'a [&'a [u8]],
    part: usize,
    taken: usize,
    fills_left: usize,
    fault: ErrorKind,
}

impl<'a> ChunkReader<'a> {
    /// Returns a reader of these parts that takes `fills` calls and then fails with this kind.
    pub fn new(parts: &'a [&'a [u8]], fills: usize, fault: ErrorKind) -> ChunkReader<'a> {
        ChunkReader {
            parts,
            part: 0,
            taken: 0,
            fills_left: fills,
            fault,
        }
    }
}

impl Read for ChunkReader<'_> {
    fn read(&mut self, buf: &mut [u8]) -> io::Result<usize> {
        let part = self.fill_buf()?;
        let count = part.len().min(buf.len());
        buf[..count].copy_from_slice(&part[..count]);
        self.consume(count);
        Ok(count)
    }
}

impl BufRead for ChunkReader<'_> {
    fn fill_buf(&mut self) -> io::Result<&[u8]> {
        if self.taken == 0 {
            if self.fills_left == 0 {
                return Err(io::Error::new(self.fault, RESET));
            }
            self.fills_left -= 1;
        }
        match self.parts.get(self.part) {
            None => Ok(b""),
            Some(part) => Ok(part.get(self.taken..).unwrap_or(b"")),
        }
    }

    fn consume(&mut self, amount: usize) {
        self.taken = self.taken.saturating_add(amount);
        if let Some(part) = self.parts.get(self.part) {
            if part.len() <= self.taken {
                self.part = self.part.saturating_add(1);
                self.taken = 0;
            }
        }
    }
}

/// Stores the bytes that are written. Fails after a given number of writes, and at a flush unless
/// `takes_flush` is set.
pub struct FailingWriter {
    written: Vec<u8>,
    writes_left: usize,
    takes_flush: bool,
}

impl FailingWriter {
    /// Returns a writer that contains the old bytes and takes this number of writes.
    pub fn new(
        alloc: Global,
        old: &[u8],
        writes: usize,
        takes_flush: bool,
    ) -> Result<FailingWriter, AllocError> {
        Ok(FailingWriter {
            written: Vec::from_slice(alloc, old)?,
            writes_left: writes,
            takes_flush,
        })
    }

    /// Returns the old bytes and the bytes written after them.
    pub fn written(&self) -> &[u8] {
        self.written.as_slice()
    }
}

impl Write for FailingWriter {
    fn write(&mut self, buf: &[u8]) -> io::Result<usize> {
        if self.writes_left == 0 {
            return Err(io::Error::from(ErrorKind::BrokenPipe));
        }
        self.writes_left -= 1;
        self.written.extend_from_slice(buf)?;
        Ok(buf.len())
    }

    fn flush(&mut self) -> io::Result<()> {
        if self.takes_flush {
            Ok(())
        } else {
            Err(io::Error::from(ErrorKind::BrokenPipe))
        }
    }
}

/// Records each write.
pub struct RecordingWriter {
    writes: Vec<Vec<u8>>,
    alloc: Global,
}

impl RecordingWriter {
    /// Returns a writer that has recorded nothing.
    pub fn new(alloc: Global) -> RecordingWriter {
        RecordingWriter {
            writes: Vec::new(alloc),
            alloc,
        }
    }

    /// Returns the writes in order.
    pub fn writes(&self) -> &[Vec<u8>] {
        self.writes.as_slice()
    }
}

impl Write for RecordingWriter {
    fn write(&mut self, buf: &[u8]) -> io::Result<usize> {
        self.writes.push(Vec::from_slice(self.alloc, buf)?)?;
        Ok(buf.len())
    }

    fn flush(&mut self) -> io::Result<()> {
        Ok(())
    }
}
