// Made from crates/filter_program/src/flushing.rt by packaging/crate/erase.py: edit that file instead.
//! An output that is flushed before its program waits for more input.
use core::cell::RefCell;
use kodliwe::internal::piece_buffer::PieceBuffer;
use std::io;
use std::io::{Read, Write};

/// A writer with the bytes that are buffered for it.
struct Pending<W: Write> {
    held: PieceBuffer,
    writer: W,
    /// Whether bytes were passed to the writer since its last flush.
    is_unflushed: bool,
    /// The writer's error that the next flush returns.
    fault: Option<io::Error>,
}

impl<W: Write> Pending<W> {
    /// Writes the buffered bytes. If the writer fails, they stay buffered.
    fn write_held(&mut self) -> io::Result<()> {
        if !self.held.is_empty() {
            self.is_unflushed = true;
            self.writer.write_all(self.held.as_slice())?;
            self.held.clear();
        }
        Ok(())
    }

    /// Writes the buffered bytes, then buffers the piece. A piece that is too long for the buffer
    /// is written at once.
    fn write_all(&mut self, piece: &[u8]) -> io::Result<()> {
        self.write_held()?;
        if self.held.push(piece) {
            return Ok(());
        }
        self.is_unflushed = true;
        self.writer.write_all(piece)
    }

    /// Writes the buffered bytes and flushes the writer.
    fn flush(&mut self) -> io::Result<()> {
        self.write_held()?;
        self.is_unflushed = false;
        self.writer.flush()
    }
}

/// An output that a `FlushingWriter` writes and that a `FlushingReader` flushes. Bytes are buffered
/// until there is no room for more.
pub struct FlushingOutput<W: Write> {
    pending: RefCell<Pending<W>>,
}

impl<W: Write> FlushingOutput<W> {
    /// Returns an output for this writer with an empty buffer.
    pub fn new(writer: W) -> Self {
        FlushingOutput {
            pending: RefCell::new(Pending {
                held: PieceBuffer::new(),
                writer,
                is_unflushed: false,
                fault: None,
            }),
        }
    }

    /// Returns a writer to the output.
    pub fn writer(&self) -> FlushingWriter<'_, W> {
        FlushingWriter { output: self }
    }

    /// Returns a reader of the input that flushes the output before each read.
    pub fn reader<R: Read>(&self, input: R) -> FlushingReader<'_, R, W> {
        FlushingReader {
            input,
            output: self,
        }
    }

    /// Buffers the piece. Returns `false` if there is no room for it.
    #[cfg_attr(not(debug_assertions), inline(always))]
    fn hold(&self, piece: &[u8]) -> bool {
        match self.pending.try_borrow_mut() {
            Ok(mut pending) => pending.held.push(piece),
            Err(_) => false,
        }
    }

    /// Writes a piece for which there is no room. Stores the error if that fails.
    #[cold]
    #[inline(never)]
    fn write_when_full(&self, piece: &[u8]) -> bool {
        let Ok(mut pending) = self.pending.try_borrow_mut() else {
            return false;
        };
        match pending.write_all(piece) {
            Ok(()) => true,
            Err(error) => {
                pending.fault = Some(error);
                false
            }
        }
    }

    /// Flushes the bytes that were written. Stores the error if that fails.
    fn flush_pending(&self) -> io::Result<()> {
        let Ok(mut pending) = self.pending.try_borrow_mut() else {
            return Err(is_in_use());
        };
        if pending.held.is_empty() && !pending.is_unflushed {
            return Ok(());
        }
        if let Err(error) = pending.flush() {
            pending.fault = Some(error);
            return Err(is_broken());
        }
        Ok(())
    }
}

/// Returns the error of an output whose writer has failed before.
fn is_broken() -> io::Error {
    io::Error::other("the output is broken")
}

/// Returns the error of an output that is already borrowed.
fn is_in_use() -> io::Error {
    io::Error::other("the output is in use")
}

/// Writes to a `FlushingOutput`.
pub struct FlushingWriter<'a, W: Write> {
    output: &'a FlushingOutput<W>,
}

impl<W: Write> Write for FlushingWriter<'_, W> {
    fn write(&mut self, buf: &[u8]) -> io::Result<usize> {
        let Ok(mut pending) = self.output.pending.try_borrow_mut() else {
            return Err(is_in_use());
        };
        pending.write_held()?;
        pending.is_unflushed = true;
        pending.writer.write(buf)
    }

    /// Writes a piece. If the writer fails, the next flush returns the writer's own error.
    #[cfg_attr(not(debug_assertions), inline(always))]
    fn write_all(&mut self, buf: &[u8]) -> io::Result<()> {
        if self.output.hold(buf) || self.output.write_when_full(buf) {
            return Ok(());
        }
        Err(is_broken())
    }

    /// Flushes the output. Returns an earlier error too, from the write of a piece or from the wait
    /// for input.
    fn flush(&mut self) -> io::Result<()> {
        let Ok(mut pending) = self.output.pending.try_borrow_mut() else {
            return Err(is_in_use());
        };
        let flushed = pending.flush();
        match pending.fault.take() {
            Some(fault) => Err(fault),
            None => flushed,
        }
    }
}

/// Reads the input, and flushes the output before each read.
///
/// Put a buffer over it, so that it is read only when the buffer is empty. If the output can't be
/// flushed, the read fails, and so does the next flush of the writer.
pub struct FlushingReader<'a, R: Read, W: Write> {
    input: R,
    output: &'a FlushingOutput<W>,
}

impl<R: Read, W: Write> Read for FlushingReader<'_, R, W> {
    fn read(&mut self, buf: &mut [u8]) -> io::Result<usize> {
        self.output.flush_pending()?;
        self.input.read(buf)
    }
}
