// Made from crates/rustc_demangle/src/stream/pending_run.rt by packaging/crate/erase.py: edit that file instead.
//! Filters bytes that arrive in chunks. Plain text and finished candidates are written, and an
//! unfinished candidate is buffered.

use crate::rustc_demangle::byte_before::ByteBefore;
use crate::rustc_demangle::runs::{may_be_replaced, run_len, run_start, run_text};
use crate::rustc_demangle::stream::fault::StreamFault;
use crate::rustc_demangle::stream::memo::SymbolMemo;
use crate::support::vec::Vec;

use crate::support::alloc::Allocator;
use std::io::Write;

/// The bytes that a filter read and has not written.
pub(super) struct Pending<A: Allocator> {
    /// What is before them.
    pub(super) before: ByteBefore,
    pub(super) bytes: Vec<u8, A>,
}

/// Writes bytes with one call of the writer, or with none if there are no bytes. Fails if the
/// writer fails.
fn write_unchanged<W: Write>(bytes: &[u8], output: &mut W) -> Result<(), StreamFault> {
    if bytes.is_empty() {
        return Ok(());
    }
    match output.write_all(bytes) {
        Ok(()) => Ok(()),
        Err(error) => Err(StreamFault::Write(error)),
    }
}

impl SymbolMemo {
    /// Writes the replacement of a candidate. Fails if the writer fails.
    #[cfg_attr(not(debug_assertions), inline(always))]
    fn write_candidate<W: Write>(
        &mut self,
        candidate: &[u8],
        output: &mut W,
    ) -> Result<(), StreamFault> {
        if !may_be_replaced(candidate) {
            return write_unchanged(candidate, output);
        }
        match self.write_run(run_text(candidate), output) {
            Ok(()) => Ok(()),
            Err(error) => Err(StreamFault::Write(error)),
        }
    }
}

/// Appends bytes to the pending text. Fails if memory can't be allocated, and then leaves it
/// unchanged.
fn buffer_bytes<A: Allocator>(pending: &mut Vec<u8, A>, bytes: &[u8]) -> Result<(), StreamFault> {
    if pending.extend_from_slice(bytes).is_err() {
        return Err(StreamFault::Memory);
    }
    Ok(())
}

/// Returns how many bytes at the end of a text may start a run that the next chunk continues. The
/// text must contain no start of a run.
fn partial_prefix_len(text: &[u8]) -> usize {
    if text.ends_with(b"_") {
        1
    } else if text.ends_with(b"_Z") {
        2
    } else {
        0
    }
}

/// Returns whether pending bytes that are no candidate may still start one when this byte follows.
fn extends_prefix(before: ByteBefore, pending: &[u8], byte: u8) -> bool {
    let last = pending[pending.len() - 1];
    if last == b'Z' {
        byte == b'N'
    } else {
        let may_take = (byte == b'_') & (pending.len() == 1) & before.is_outside();
        (byte == b'R') | (byte == b'Z') | may_take
    }
}

impl<A: Allocator> Pending<A> {
    /// Writes the filtered form of the pending text, which is complete. Clears the text, even if
    /// the writer fails.
    pub(super) fn finish<W: Write>(
        &mut self,
        output: &mut W,
        memo: &mut SymbolMemo,
    ) -> Result<(), StreamFault> {
        let before = self.before;
        let text = self.bytes.as_slice();
        let written = if before.starts_candidate(text) {
            memo.write_candidate(text, output)
        } else {
            write_unchanged(text, output)
        };
        self.before = before.after(text);
        self.bytes.clear();
        written
    }

    /// Appends one byte to pending bytes that are no candidate and returns 1, if they may still
    /// start one. Otherwise writes the pending bytes as plain text and returns 0. Fails if the
    /// writer fails or memory can't be allocated.
    fn extend_prefix<W: Write>(
        &mut self,
        available: &[u8],
        output: &mut W,
        memo: &mut SymbolMemo,
    ) -> Result<usize, StreamFault> {
        if extends_prefix(self.before, self.bytes.as_slice(), available[0]) {
            buffer_bytes(&mut self.bytes, &available[..1])?;
            return Ok(1);
        }
        self.finish(output, memo)?;
        Ok(0)
    }

    /// Appends the bytes that continue the pending candidate, and returns their number. Writes the
    /// candidate's replacement if it ends before the chunk does. Fails if the writer fails or
    /// memory can't be allocated.
    fn extend_candidate<W: Write>(
        &mut self,
        available: &[u8],
        output: &mut W,
        memo: &mut SymbolMemo,
    ) -> Result<usize, StreamFault> {
        let len = run_len(available);
        buffer_bytes(&mut self.bytes, &available[..len])?;
        if len < available.len() {
            self.finish(output, memo)?;
        }
        Ok(len)
    }

    /// Filters a chunk when nothing is pending, and returns how many bytes it used.
    ///
    /// Writes everything up to the end of the first candidate. If the chunk ends inside a
    /// candidate, or may end with the start of one, that part becomes pending. The text before it
    /// is written. Fails if the writer fails or memory can't be allocated.
    fn filter_text<W: Write>(
        &mut self,
        available: &[u8],
        output: &mut W,
        memo: &mut SymbolMemo,
    ) -> Result<usize, StreamFault> {
        let before = self.before;
        let Some(start) = run_start(available) else {
            let place = available.len() - partial_prefix_len(available);
            let (kept, beginning) = available.split_at(before.plain_len(&available[..place]));
            // Buffered before anything is written. If memory can't be allocated, the caller can
            // repeat the step.
            buffer_bytes(&mut self.bytes, beginning)?;
            self.before = before.after(kept);
            write_unchanged(kept, output)?;
            return Ok(available.len());
        };
        let (kept, found) = available.split_at(before.plain_len(&available[..start]));
        let len = run_len(found);
        if len == found.len() {
            buffer_bytes(&mut self.bytes, found)?;
            self.before = before.after(kept);
            write_unchanged(kept, output)?;
            return Ok(available.len());
        }
        write_unchanged(kept, output)?;
        let candidate = &found[..len];
        memo.write_candidate(candidate, output)?;
        self.before = ByteBefore::Inside;
        Ok(kept.len() + len)
    }

    /// Filters a prefix of the available bytes, and returns its length. Writes all that is certain;
    /// an unfinished candidate stays pending. Fails if the writer fails or memory can't be
    /// allocated.
    pub(super) fn filter_chunk<W: Write>(
        &mut self,
        available: &[u8],
        output: &mut W,
        memo: &mut SymbolMemo,
    ) -> Result<usize, StreamFault> {
        if self.bytes.is_empty() {
            return self.filter_text(available, output, memo);
        }
        if self.before.starts_candidate(self.bytes.as_slice()) {
            return self.extend_candidate(available, output, memo);
        }
        self.extend_prefix(available, output, memo)
    }
}
