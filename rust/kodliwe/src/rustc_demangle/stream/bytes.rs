// Made from crates/rustc_demangle/src/stream/bytes.rt by packaging/crate/erase.py: edit that file instead.
//! Demangles any bytes that come from a reader.

use crate::rustc_demangle::byte_before::ByteBefore;
use crate::rustc_demangle::stream::fault::{StreamFault, read_fault};
use crate::rustc_demangle::stream::memo::SymbolMemo;
use crate::rustc_demangle::stream::pending_run::Pending;
use crate::support::vec::Vec;

use crate::demangle_value::format::{Format, SizeLimit, unfolded_form};
use crate::support::alloc::{Allocator, Global};
use std::io;
use std::io::{BufRead, Write};

/// A filter of any bytes. It buffers the unfinished candidate at the end of the bytes so far.
pub struct BytesFilter<A: Allocator> {
    pending: Pending<A>,
}

impl<A: Allocator> BytesFilter<A> {
    /// Returns a filter that has read no bytes.
    pub fn new(alloc: A) -> Self {
        BytesFilter {
            pending: Pending {
                before: ByteBefore::Outside,
                bytes: Vec::new(alloc),
            },
        }
    }

    /// Filters some of the reader's available bytes, and writes what is certain. Returns `false` at
    /// the end of the input, after the pending bytes are written. The filter is then as a new one,
    /// and may read another input. The memo determines how symbols are printed, and remembers their
    /// texts.
    ///
    /// # Errors
    ///
    /// Fails if the reader or the writer fails, or if memory can't be allocated. If the reader or
    /// an allocation fails, nothing is consumed, nothing is written and no look is made. The caller
    /// can then repeat the step, for example after an interrupted read.
    pub fn step<R: BufRead, W: Write>(
        &mut self,
        input: &mut R,
        output: &mut W,
        memo: &mut SymbolMemo,
    ) -> Result<bool, StreamFault> {
        let available = match input.fill_buf() {
            Ok(available) => available,
            Err(error) => return Err(read_fault(error)),
        };
        if available.is_empty() {
            self.pending.finish(output, memo)?;
            self.pending.before = ByteBefore::Outside;
            return Ok(false);
        }
        let taken = self.pending.filter_chunk(available, output, memo)?;
        input.consume(taken);
        Ok(true)
    }
}

/// Writes the input, which may be any bytes, with each symbol of it demangled. Each symbol is cut
/// at `limit` bytes before its suffix. It is also cut where its references would make a print read
/// more than 384 bytes again for each of its own, or more than 384,000,000.
///
/// A candidate symbol, or run, starts with `_ZN` or `_R`. It continues up to the next byte that is
/// not an ASCII letter, a digit, `$`, `.` or `_`. A run that is not a symbol is written unchanged,
/// and so is one that begins with `_RC`. A path also replaces a single `_` before its run, if that
/// `_` is the first byte or follows a byte that no run may have.
///
/// The input is read in the reader's chunks and not by lines. The bytes of a chunk between two runs
/// are one write. Memory holds the unfinished run at the end of the bytes so far, and a
/// `SymbolMemo`. So each symbol is one write. If it prints more than 2,048 bytes, it is written in
/// parts if `limit` is over 1,000,000, or if memory for it can't be allocated.
///
/// # Errors
///
/// Fails if the reader or the writer fails, or if memory for the run can't be allocated. It never
/// fails because the bytes are not UTF-8. It never fails because memory for the memo can't be
/// allocated.
pub fn demangle_bytes_limited<R: BufRead, W: Write>(
    alloc: Global,
    input: &mut R,
    output: &mut W,
    include_hash: bool,
    limit: usize,
) -> Result<(), StreamFault> {
    let limit = SizeLimit::Bytes(limit);
    let format = Format::bounded(unfolded_form(include_hash), limit);
    demangle_bytes_formatted(alloc, input, output, format)
}

/// Writes the input, which may be any bytes, with each symbol of it demangled, as
/// `demangle_bytes_limited` does. The memo determines how symbols are printed, and remembers their
/// texts.
pub fn demangle_bytes_counted<R: BufRead, W: Write>(
    input: &mut R,
    output: &mut W,
    memo: &mut SymbolMemo,
) -> Result<(), StreamFault> {
    let mut filter = BytesFilter::new(memo.allocator());
    for _ in 0..=u64::MAX {
        if !filter.step(input, output, memo)? {
            return Ok(());
        }
    }
    Err(StreamFault::Read(io::Error::other("too many steps")))
}

/// Writes the input with each symbol of it demangled in a format, as `demangle_bytes_counted` does.
pub fn demangle_bytes_formatted<R: BufRead, W: Write>(
    alloc: Global,
    input: &mut R,
    output: &mut W,
    format: Format,
) -> Result<(), StreamFault> {
    let mut memo = SymbolMemo::with_format(alloc, format);
    demangle_bytes_counted(input, output, &mut memo)
}

/// Writes the input, which may be any bytes, with each symbol of it demangled, as
/// `demangle_bytes_limited` does. A symbol of n bytes is cut at 999 n - 20 bytes, and at 1,000,000
/// at most. So the output has at most 1,000 bytes for each byte of the input.
pub fn demangle_bytes<R: BufRead, W: Write>(
    alloc: Global,
    input: &mut R,
    output: &mut W,
    include_hash: bool,
) -> Result<(), StreamFault> {
    let format = Format::bounded(unfolded_form(include_hash), SizeLimit::Linear);
    demangle_bytes_formatted(alloc, input, output, format)
}
