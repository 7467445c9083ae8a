// Made from crates/kodliwe_program/src/coalescing.rt by packaging/crate/erase.py: edit that file instead.
//! Collects short pieces before they are written.

use crate::support::io::BufWriter;
use kodliwe::internal::piece_buffer::PieceBuffer;
use std::io;
use std::io::{ErrorKind, Write};

/// A buffered writer, and the bytes that are held for it. Held bytes are written if there is no
/// room for the next piece, and by a flush.
pub struct CoalescingOutput<W: Write> {
    held: PieceBuffer,
    buffer: BufWriter<W>,
    /// Why the last piece was not written.
    fault: Option<io::Error>,
}

impl<W: Write> CoalescingOutput<W> {
    /// Returns an output into this buffer, with nothing held.
    pub fn new(buffer: BufWriter<W>) -> Self {
        CoalescingOutput {
            held: PieceBuffer::new(),
            buffer,
            fault: None,
        }
    }

    /// Writes the held bytes, and continues if a signal interrupts that. Fails if the buffer fails;
    /// bytes that it did not accept stay held.
    fn write_held(&mut self) -> io::Result<()> {
        for _ in 0..=u64::MAX {
            if self.held.is_empty() {
                return Ok(());
            }
            match self.buffer.write(self.held.as_slice()) {
                Ok(0) => return Err(io::Error::from(ErrorKind::WriteZero)),
                Ok(taken) => self.held.remove_prefix(taken),
                Err(error) if error.kind() == ErrorKind::Interrupted => {}
                Err(error) => return Err(error),
            }
        }
        Err(io::Error::other("too many signals"))
    }

    /// Writes the held bytes, and then holds the piece, or writes it if it is too long. Fails if
    /// the buffer fails.
    fn write_then_hold(&mut self, piece: &[u8]) -> io::Result<()> {
        self.write_held()?;
        if self.held.push(piece) {
            return Ok(());
        }
        self.buffer.write_all(piece)
    }

    /// Writes a piece for which there is no room. Returns `false` after an error, and stores it: so
    /// callers need no room for an error at each piece.
    #[cold]
    #[inline(never)]
    fn write_when_full(&mut self, piece: &[u8]) -> bool {
        match self.write_then_hold(piece) {
            Ok(()) => true,
            Err(error) => {
                self.fault = Some(error);
                false
            }
        }
    }

    /// Returns why the last piece was not written, and removes that error.
    #[cold]
    #[inline(never)]
    fn take_error(&mut self) -> io::Error {
        match self.fault.take() {
            Some(error) => error,
            None => io::Error::other("the output is broken"),
        }
    }
}

impl<W: Write> Write for CoalescingOutput<W> {
    fn write(&mut self, buf: &[u8]) -> io::Result<usize> {
        self.write_held()?;
        self.buffer.write(buf)
    }

    fn flush(&mut self) -> io::Result<()> {
        self.write_held()?;
        self.buffer.flush()
    }

    #[cfg_attr(not(debug_assertions), inline(always))]
    fn write_all(&mut self, buf: &[u8]) -> io::Result<()> {
        if self.held.push(buf) || self.write_when_full(buf) {
            return Ok(());
        }
        Err(self.take_error())
    }
}
