// Made from crates/filter_program_tests/src/tests/outputs.rt by packaging/crate/erase.py: edit that file instead.
//! Tests of the output's buffer, with a writer that takes a part of a write or fails once.
use super::{WRITE_FAILED, assert_failed, run_pausing};
use crate::filter_program::flushing::FlushingOutput;
use crate::support::alloc::Global;
use crate::support::rt::HostRuntime;
use crate::support::test::Fail;
use crate::support::vec::Vec;
use crate::support::vec_in as vec;
use crate::test_doubles::streams::{ChunkReader, FailingWriter};
use kodliwe::internal::piece_buffer::CAPACITY;
use std::io;
use std::io::{ErrorKind, Read, Write};

/// Takes at most three bytes in one write.
struct ShortWriter {
    written: Vec<u8>,
}

impl Write for ShortWriter {
    fn write(&mut self, buf: &[u8]) -> io::Result<usize> {
        let part = buf.get(..3).unwrap_or(buf);
        self.written.extend_from_slice(part)?;
        Ok(part.len())
    }

    fn flush(&mut self) -> io::Result<()> {
        Ok(())
    }
}

/// Fails one write and one flush, each after a given number of them. Takes all others, and counts
/// the flushes that it took.
struct OnceRefusingWriter {
    written: Vec<u8>,
    writes_left: usize,
    flushes_left: usize,
    flushed: usize,
}

impl OnceRefusingWriter {
    fn new(alloc: Global, writes: usize, flushes: usize) -> OnceRefusingWriter {
        OnceRefusingWriter {
            written: Vec::new(alloc),
            writes_left: writes,
            flushes_left: flushes,
            flushed: 0,
        }
    }
}

impl Write for OnceRefusingWriter {
    fn write(&mut self, buf: &[u8]) -> io::Result<usize> {
        if self.writes_left == 0 {
            self.writes_left = usize::MAX;
            return Err(io::Error::from(ErrorKind::BrokenPipe));
        }
        self.writes_left -= 1;
        self.written.extend_from_slice(buf)?;
        Ok(buf.len())
    }

    fn flush(&mut self) -> io::Result<()> {
        if self.flushes_left == 0 {
            self.flushes_left = usize::MAX;
            return Err(io::Error::from(ErrorKind::BrokenPipe));
        }
        self.flushes_left -= 1;
        self.flushed = self.flushed.saturating_add(1);
        Ok(())
    }
}

#[test]
fn long_pieces_are_written_whole() -> Result<(), Fail> {
    let rt = HostRuntime;
    let alloc = rt.alloc();
    let mut text = vec![in alloc; b'l'; CAPACITY + 5]?;
    text.extend_from_slice(b"\nx _ZN3fooE\n")?;
    let mut wanted = vec![in alloc; b'l'; CAPACITY + 5]?;
    wanted.extend_from_slice(b"\nx foo\n")?;
    let parts: [&[u8]; 1] = [text.as_slice()];
    let input = ChunkReader::new(&parts, 100, ErrorKind::Other);
    let mut output = ShortWriter {
        written: Vec::new(alloc),
    };
    let ended = run_pausing(alloc, input, &mut output)?;
    assert_eq!(ended.status, 0);
    assert!(output.written.as_slice() == wanted.as_slice());
    Ok(())
}

#[test]
fn pending_pieces_are_written_whole() -> Result<(), Fail> {
    let rt = HostRuntime;
    let alloc = rt.alloc();
    let parts: [&[u8]; 1] = [b"abcdef _ZN3fooE\n"];
    let input = ChunkReader::new(&parts, 100, ErrorKind::Other);
    let mut output = ShortWriter {
        written: Vec::new(alloc),
    };
    let ended = run_pausing(alloc, input, &mut output)?;
    assert_eq!(ended.status, 0);
    assert_eq!(output.written.as_slice(), b"abcdef foo\n".as_slice());
    Ok(())
}

#[test]
fn a_failed_line_precedes_one_that_is_not_utf8() -> Result<(), Fail> {
    let rt = HostRuntime;
    let alloc = rt.alloc();
    let parts: [&[u8]; 1] = [b"_ZN3fooE\n\xFF\n"];
    let input = ChunkReader::new(&parts, 100, ErrorKind::Other);
    let mut output = FailingWriter::new(alloc, b"", 0, true)?;
    let ended = run_pausing(alloc, input, &mut output)?;
    assert_failed(&ended, WRITE_FAILED);
    Ok(())
}

#[test]
fn a_flush_that_fails_once_ends_the_run() -> Result<(), Fail> {
    let rt = HostRuntime;
    let alloc = rt.alloc();
    let parts: [&[u8]; 2] = [b"_ZN3fooE\n", b"z\n"];
    let input = ChunkReader::new(&parts, 100, ErrorKind::Other);
    let mut output = OnceRefusingWriter::new(alloc, 100, 0);
    let ended = run_pausing(alloc, input, &mut output)?;
    assert_failed(&ended, WRITE_FAILED);
    assert_eq!(output.written.as_slice(), b"foo\n".as_slice());
    Ok(())
}

#[test]
fn a_write_that_fails_once_is_reported() -> Result<(), Fail> {
    let rt = HostRuntime;
    let alloc = rt.alloc();
    let full = vec![in alloc; b'f'; CAPACITY]?;
    let mut refusing = OnceRefusingWriter::new(alloc, 0, 100);
    let output = FlushingOutput::new(&mut refusing);
    let mut writer = output.writer();
    assert!(writer.write_all(b"x").is_ok());
    assert!(writer.write_all(full.as_slice()).is_err());
    assert!(writer.flush().is_err());
    drop(output);
    // The bytes of the failed write stay buffered, and the flush writes them.
    assert_eq!(refusing.written.as_slice(), b"x".as_slice());
    Ok(())
}

#[test]
fn each_wait_flushes_once() -> Result<(), Fail> {
    let rt = HostRuntime;
    let alloc = rt.alloc();
    let parts: [&[u8]; 3] = [b"a\n", b"b", b"c\n"];
    let input = ChunkReader::new(&parts, 100, ErrorKind::Other);
    let mut output = OnceRefusingWriter::new(alloc, 100, 100);
    let ended = run_pausing(alloc, input, &mut output)?;
    assert_eq!(ended.status, 0);
    assert_eq!(output.flushed, 3);
    Ok(())
}

#[test]
fn a_part_follows_pending_bytes() -> Result<(), Fail> {
    let rt = HostRuntime;
    let alloc = rt.alloc();
    let mut written = Vec::new(alloc);
    let output = FlushingOutput::new(&mut written);
    let mut writer = output.writer();
    writer.write_all(b"a")?;
    assert_eq!(writer.write(b"b")?, 1);
    writer.flush()?;
    drop(output);
    assert_eq!(written.as_slice(), b"ab".as_slice());
    Ok(())
}

#[test]
fn a_part_is_flushed_before_more_is_read() -> Result<(), Fail> {
    let rt = HostRuntime;
    let alloc = rt.alloc();
    let mut taking = OnceRefusingWriter::new(alloc, 100, 100);
    let output = FlushingOutput::new(&mut taking);
    assert_eq!(output.writer().write(b"a")?, 1);
    let parts: [&[u8]; 1] = [b"b"];
    {
        let mut input = output.reader(ChunkReader::new(&parts, 100, ErrorKind::Other));
        let mut read = [0; 1];
        assert_eq!(input.read(&mut read)?, 1);
    }
    drop(output);
    assert_eq!(taking.written.as_slice(), b"a".as_slice());
    assert_eq!(taking.flushed, 1);
    Ok(())
}
