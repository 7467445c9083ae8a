// Made from crates/rustc_demangle/src/stream.rt by packaging/crate/erase.py: edit that file instead.
//! Demangles a text that comes from a reader.

use crate::support::alloc::{Allocator, Global};
use crate::support::vec::Vec;
use core::str;
use std::io;
use std::io::{BufRead, Write};

mod buffer_sink;
mod bytes;
mod credit;
mod fault;
mod line_reader;
mod line_writer;
mod memo;
mod pending_run;

pub use bytes::{
    BytesFilter, demangle_bytes, demangle_bytes_counted, demangle_bytes_formatted,
    demangle_bytes_limited,
};
pub use fault::StreamFault;
use line_reader::read_line;
use line_writer::demangle_line;
pub use memo::SymbolMemo;

/// Reads a line completely and then writes it demangled. Returns `false` at the end of the input.
/// Fails if the reader or the writer fails, if the line is not UTF-8, or if memory can't be
/// allocated.
fn copy_line<R: BufRead, W: Write, A: Allocator>(
    input: &mut R,
    output: &mut W,
    line: &mut Vec<u8, A>,
    include_hash: bool,
) -> Result<bool, StreamFault> {
    line.clear();
    read_line(input, line)?;
    if line.is_empty() {
        return Ok(false);
    }
    let Ok(text) = str::from_utf8(line.as_slice()) else {
        return Err(StreamFault::NotUtf8);
    };
    match demangle_line(text, output, include_hash) {
        Ok(()) => Ok(true),
        Err(error) => Err(StreamFault::Write(error)),
    }
}

/// Copies all lines of the input with their symbols demangled. `line` is the buffer. Fails as
/// `copy_line` does.
fn copy_lines<R: BufRead, W: Write, A: Allocator>(
    input: &mut R,
    output: &mut W,
    line: &mut Vec<u8, A>,
    include_hash: bool,
) -> Result<(), StreamFault> {
    for _ in 0..=u64::MAX {
        if !copy_line(input, output, line, include_hash)? {
            return Ok(());
        }
    }
    Err(StreamFault::Read(io::Error::other("too many lines")))
}

/// Writes the input with each symbol of it demangled.
///
/// A candidate symbol starts with `_ZN` or `_R`. It continues up to the next character that is not
/// an ASCII letter, a digit, `$`, `.` or `_`. A candidate that is not a symbol is written
/// unchanged. A symbol that begins with `_RC` is replaced too, unlike by `demangle_bytes`. A line is
/// read completely before any of it is written.
///
/// # Errors
///
/// Fails if the reader or the writer returns an error, if a line is not UTF-8, or if memory for the
/// line can't be allocated.
pub fn demangle_stream_named<R: BufRead, W: Write, A: Allocator>(
    alloc: A,
    input: &mut R,
    output: &mut W,
    include_hash: bool,
) -> Result<(), StreamFault> {
    let mut line = Vec::new(alloc);
    copy_lines(input, output, &mut line, include_hash)
}

/// Writes the input with each symbol of it demangled, as `demangle_stream_named` does.
///
/// The error is an `io::Error`, made by `StreamFault::into_io`. A caller that has to know what was
/// written before an error calls these two functions.
pub fn demangle_stream<R: BufRead, W: Write>(
    alloc: Global,
    input: &mut R,
    output: &mut W,
    include_hash: bool,
) -> io::Result<()> {
    demangle_stream_named(alloc, input, output, include_hash).map_err(StreamFault::into_io)
}
