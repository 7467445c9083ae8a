//! Filters what a reader has into a writer.
use crate::Format;
use crate::piece_buffer::PieceBuffer;
use crate::rustc_demangle;
use crate::support::alloc::Global;
use std::io::{self, BufRead, Write};
use std::{error, fmt};

pub use crate::rustc_demangle::StreamFault;

/// Copies `input` to `output` line by line, with each Rust symbol demangled.
///
/// Symbols are found as by [`demangle_text`](crate::demangle_text): one that begins with `_RC` is
/// replaced too, and the `_` that macOS writes before a symbol stays. [`demangle_bytes`] has the rule
/// of `kodliwe`. A line is read completely before any of it is written. Each piece of a symbol and
/// each text between two symbols is one write, so pass a buffered writer if a write is costly.
///
/// # Errors
///
/// Fails with the error of `input` or `output`, with [`InvalidData`](io::ErrorKind::InvalidData) if
/// a line is not UTF-8, and with [`OutOfMemory`](io::ErrorKind::OutOfMemory) if there is no memory
/// for a line. The lines before it are written.
///
/// ```
/// let mut output = Vec::new();
/// kodliwe::demangle_stream(&mut "at _ZN3foo3barE:7\n".as_bytes(), &mut output, false)?;
/// assert_eq!(output, b"at foo::bar:7\n");
/// # std::io::Result::Ok(())
/// ```
pub fn demangle_stream<R: BufRead, W: Write>(
    input: &mut R,
    output: &mut W,
    include_hash: bool,
) -> io::Result<()> {
    rustc_demangle::demangle_stream(Global, input, output, include_hash)
}

/// Copies `input` to `output` as [`demangle_stream`] does. The error says which of the two failed,
/// or that there is no memory.
///
/// # Errors
///
/// Fails as [`demangle_stream`] does.
pub fn demangle_stream_named<R: BufRead, W: Write>(
    input: &mut R,
    output: &mut W,
    include_hash: bool,
) -> Result<(), StreamFault> {
    rustc_demangle::demangle_stream_named(Global, input, output, include_hash)
}

/// Copies any bytes from `input` to `output`, with each Rust symbol demangled.
///
/// It does not wait for the end of a line. It writes what the reader makes available at once,
/// except a symbol that may continue. A symbol that begins with `_RC` stays, as in `v1.0_RC0`. A
/// path also replaces the single `_` that macOS writes before a symbol.
///
/// # Errors
///
/// Fails if the reader or the writer fails, or if there is no memory for a symbol.
///
/// ```
/// let mut output = Vec::new();
/// kodliwe::demangle_bytes(&mut &b"\xFF _ZN3foo3barE"[..], &mut output, false)?;
/// assert_eq!(output, b"\xFF foo::bar");
/// # Ok::<(), kodliwe::StreamFault>(())
/// ```
pub fn demangle_bytes<R: BufRead, W: Write>(
    input: &mut R,
    output: &mut W,
    include_hash: bool,
) -> Result<(), StreamFault> {
    rustc_demangle::demangle_bytes(Global, input, output, include_hash)
}

/// Copies any bytes as [`demangle_bytes`] does, with each path cut at `limit` bytes. What its
/// references make it read again also cuts a path ([`RereadLimit::Linear`](crate::RereadLimit::Linear)).
///
/// # Errors
///
/// Fails as [`demangle_bytes`] does.
pub fn demangle_bytes_limited<R: BufRead, W: Write>(
    input: &mut R,
    output: &mut W,
    include_hash: bool,
    limit: usize,
) -> Result<(), StreamFault> {
    rustc_demangle::demangle_bytes_limited(Global, input, output, include_hash, limit)
}

/// Copies any bytes as [`demangle_bytes`] does, with each symbol printed in a format.
///
/// # Errors
///
/// Fails as [`demangle_bytes`] does.
pub fn demangle_bytes_formatted<R: BufRead, W: Write>(
    input: &mut R,
    output: &mut W,
    format: Format,
) -> Result<(), StreamFault> {
    rustc_demangle::demangle_bytes_formatted(Global, input, output, format.for_bytes())
}

/// A filter of any bytes that runs step by step, for readers that pause.
///
/// It remembers the paths of symbols, in at most 5.5 MB, or 7.6 MB while that grows, so a repeated
/// symbol costs little. It allocates nothing for that before a symbol is long enough to be
/// remembered.
///
/// ```
/// let (mut input, mut output) = (&b"at _ZN3foo3barE"[..], Vec::new());
/// let mut filter = kodliwe::BytesFilter::new(false);
/// while filter.step(&mut input, &mut output)? {}
/// assert_eq!(output, b"at foo::bar");
/// # Ok::<(), kodliwe::StreamFault>(())
/// ```
pub struct BytesFilter {
    filter: rustc_demangle::BytesFilter<Global>,
    memo: rustc_demangle::SymbolMemo,
}

impl BytesFilter {
    /// Returns a filter that has read nothing. It prints hashes if `include_hash` is true.
    pub fn new(include_hash: bool) -> BytesFilter {
        BytesFilter::with_format(Format::new().with_hash(include_hash))
    }

    /// Returns a filter as [`new`](BytesFilter::new) does, which cuts each path at `limit` bytes.
    pub fn with_limit(include_hash: bool, limit: usize) -> BytesFilter {
        BytesFilter::with_format(Format::new().with_hash(include_hash).with_limit(limit))
    }

    /// Returns a filter as [`new`](BytesFilter::new) does, which prints symbols in a format.
    pub fn with_format(format: Format) -> BytesFilter {
        BytesFilter {
            filter: rustc_demangle::BytesFilter::new(Global),
            memo: rustc_demangle::SymbolMemo::with_format(Global, format.for_bytes()),
        }
    }

    /// Reads some of the available bytes, and writes those whose result is known.
    ///
    /// Returns `false` at the end of the input, after it wrote its pending bytes. Then the filter may
    /// read another input, whose first byte follows nothing.
    ///
    /// # Errors
    ///
    /// Fails if the reader or the writer fails, or if there is no memory for a symbol. If the
    /// reader or the memory failed, nothing was read or written, and the caller can repeat the
    /// step.
    pub fn step<R: BufRead, W: Write>(
        &mut self,
        input: &mut R,
        output: &mut W,
    ) -> Result<bool, StreamFault> {
        self.filter.step(input, output, &mut self.memo)
    }
}

impl fmt::Debug for BytesFilter {
    fn fmt(&self, f: &mut fmt::Formatter<'_>) -> fmt::Result {
        f.debug_struct("BytesFilter").finish_non_exhaustive()
    }
}

impl fmt::Debug for StreamFault {
    fn fmt(&self, f: &mut fmt::Formatter<'_>) -> fmt::Result {
        match self {
            StreamFault::Read(error) => f.debug_tuple("Read").field(error).finish(),
            StreamFault::NotUtf8 => f.write_str("NotUtf8"),
            StreamFault::Write(error) => f.debug_tuple("Write").field(error).finish(),
            StreamFault::Memory => f.write_str("Memory"),
        }
    }
}

impl fmt::Display for StreamFault {
    fn fmt(&self, f: &mut fmt::Formatter<'_>) -> fmt::Result {
        f.write_str(match self {
            StreamFault::Read(_) => "the input could not be read",
            StreamFault::NotUtf8 => "a line is not UTF-8",
            StreamFault::Write(_) => "the output could not be written",
            StreamFault::Memory => "out of memory",
        })
    }
}

impl error::Error for StreamFault {
    fn source(&self) -> Option<&(dyn error::Error + 'static)> {
        match self {
            StreamFault::Read(error) | StreamFault::Write(error) => Some(error),
            StreamFault::NotUtf8 | StreamFault::Memory => None,
        }
    }
}

impl From<StreamFault> for io::Error {
    fn from(fault: StreamFault) -> io::Error {
        fault.into_io()
    }
}

impl Default for PieceBuffer {
    fn default() -> PieceBuffer {
        PieceBuffer::new()
    }
}
