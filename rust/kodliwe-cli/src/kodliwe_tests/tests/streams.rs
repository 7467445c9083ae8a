// Made from crates/kodliwe_tests/src/tests/streams.rt by packaging/crate/erase.py: edit that file instead.
//! Readers and writers that transfer a few bytes at a time, fail, or check when the output is
//! flushed.
use crate::support::alloc::Global;
use crate::support::vec::Vec;
use core::cell::Cell;
use std::io;
use std::io::{ErrorKind, Read, Write};

/// A reader of a text that gives at most `most` bytes at a read, and can fail after a number of
/// reads.
pub struct ChunkReader<'a> {
    rest: &'a [u8],
    most: usize,
    reads_left: usize,
    kind: ErrorKind,
    /// Whether every other read is interrupted, and whether the next one is.
    interrupted: Option<bool>,
}

impl<'a> ChunkReader<'a> {
    /// Returns a reader that gives at most this many bytes at a read.
    pub fn new(text: &'a [u8], most: usize) -> ChunkReader<'a> {
        ChunkReader {
            rest: text,
            most,
            reads_left: usize::MAX,
            kind: ErrorKind::Other,
            interrupted: None,
        }
    }

    /// Returns such a reader, which fails after this many reads.
    pub fn failing(self, reads: usize, kind: ErrorKind) -> ChunkReader<'a> {
        ChunkReader {
            rest: self.rest,
            most: self.most,
            reads_left: reads,
            kind,
            interrupted: self.interrupted,
        }
    }

    /// Returns such a reader with every other read interrupted, from the first one on.
    pub fn interrupted(self) -> ChunkReader<'a> {
        ChunkReader {
            rest: self.rest,
            most: self.most,
            reads_left: self.reads_left,
            kind: self.kind,
            interrupted: Some(true),
        }
    }
}

impl Read for ChunkReader<'_> {
    fn read(&mut self, buf: &mut [u8]) -> io::Result<usize> {
        if let Some(is_next) = self.interrupted {
            self.interrupted = Some(!is_next);
            if is_next {
                return Err(io::Error::from(ErrorKind::Interrupted));
            }
        }
        if self.reads_left == 0 {
            return Err(io::Error::new(self.kind, "reset by the other side"));
        }
        self.reads_left -= 1;
        let count = self.rest.len().min(self.most).min(buf.len());
        let (prefix, following) = self.rest.split_at(count);
        buf[..count].copy_from_slice(prefix);
        self.rest = following;
        Ok(count)
    }
}

/// A writer that collects what it gets, at most `most` bytes of a write. It can fail after a number
/// of calls; writes and flushes are counted.
pub struct CallsWriter {
    held: Vec<u8>,
    calls: usize,
    calls_left: usize,
    kind: ErrorKind,
    most: usize,
    /// Whether it fails at one call only, and accepts the later ones.
    fails_once: bool,
    interrupted: Option<bool>,
}

impl CallsWriter {
    /// Returns a writer that accepts this many calls, and this many bytes of a write.
    pub fn new(alloc: Global, calls: usize, kind: ErrorKind, most: usize) -> CallsWriter {
        CallsWriter {
            held: Vec::new(alloc),
            calls: 0,
            calls_left: calls,
            kind,
            most,
            fails_once: false,
            interrupted: None,
        }
    }

    /// Lets it accept the calls after the one at which it fails.
    pub fn fail_once(&mut self) {
        self.fails_once = true;
    }

    /// Returns such a writer with every other call interrupted, from the first one on.
    pub fn interrupted(mut self) -> CallsWriter {
        self.interrupted = Some(true);
        self
    }

    /// Returns what was written.
    pub fn held(&self) -> &[u8] {
        self.held.as_slice()
    }

    /// Returns how many calls were accepted.
    pub fn calls(&self) -> usize {
        self.calls
    }

    fn call(&mut self) -> io::Result<()> {
        if let Some(is_next) = self.interrupted {
            self.interrupted = Some(!is_next);
            if is_next {
                return Err(io::Error::from(ErrorKind::Interrupted));
            }
        }
        if self.calls_left == 0 {
            if self.fails_once {
                self.calls_left = usize::MAX;
            }
            return Err(io::Error::new(self.kind, "no space"));
        }
        self.calls_left -= 1;
        self.calls = self.calls.saturating_add(1);
        Ok(())
    }
}

impl Write for CallsWriter {
    fn write(&mut self, buf: &[u8]) -> io::Result<usize> {
        self.call()?;
        let count = buf.len().min(self.most);
        self.held.extend_from_slice(&buf[..count])?;
        Ok(count)
    }

    fn flush(&mut self) -> io::Result<()> {
        self.call()
    }
}

/// A writer that collects what it gets. A number of interruptions comes before each call that it
/// accepts.
pub struct StutteringWriter {
    held: Vec<u8>,
    each: u32,
    left: u32,
}

impl StutteringWriter {
    pub fn new(alloc: Global, each: u32) -> StutteringWriter {
        StutteringWriter {
            held: Vec::new(alloc),
            each,
            left: each,
        }
    }

    pub fn held(&self) -> &[u8] {
        self.held.as_slice()
    }

    fn call(&mut self) -> io::Result<()> {
        if self.left == 0 {
            self.left = self.each;
            return Ok(());
        }
        self.left -= 1;
        Err(io::Error::from(ErrorKind::Interrupted))
    }
}

impl Write for StutteringWriter {
    fn write(&mut self, buf: &[u8]) -> io::Result<usize> {
        self.call()?;
        self.held.extend_from_slice(buf)?;
        Ok(buf.len())
    }

    fn flush(&mut self) -> io::Result<()> {
        self.call()
    }
}

/// A writer that collects what it gets, and shares with its reader whether that was flushed.
pub struct WatchedWriter<'a> {
    held: Vec<u8>,
    is_unflushed: &'a Cell<bool>,
}

impl<'a> WatchedWriter<'a> {
    pub fn new(held: Vec<u8>, is_unflushed: &'a Cell<bool>) -> WatchedWriter<'a> {
        WatchedWriter { held, is_unflushed }
    }

    pub fn held(&self) -> &[u8] {
        self.held.as_slice()
    }
}

impl Write for WatchedWriter<'_> {
    fn write(&mut self, buf: &[u8]) -> io::Result<usize> {
        self.held.extend_from_slice(buf)?;
        self.is_unflushed.set(true);
        Ok(buf.len())
    }

    fn flush(&mut self) -> io::Result<()> {
        self.is_unflushed.set(false);
        Ok(())
    }
}

/// A reader of a text in reads of 12 bytes. It fails if it is read while something is not flushed.
pub struct WatchingReader<'a> {
    reader: ChunkReader<'a>,
    is_unflushed: &'a Cell<bool>,
}

impl<'a> WatchingReader<'a> {
    pub fn new(text: &'a [u8], is_unflushed: &'a Cell<bool>) -> WatchingReader<'a> {
        WatchingReader {
            reader: ChunkReader::new(text, 12),
            is_unflushed,
        }
    }
}

impl Read for WatchingReader<'_> {
    fn read(&mut self, buf: &mut [u8]) -> io::Result<usize> {
        if self.is_unflushed.get() {
            return Err(io::Error::other("not flushed"));
        }
        self.reader.read(buf)
    }
}
