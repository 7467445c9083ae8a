// Made from crates/rustc_demangle/src/stream/line_reader.rt by packaging/crate/erase.py: edit that file instead.
//! Reads a line from a reader, in the reader's chunks.

use crate::rustc_demangle::stream::fault::{StreamFault, read_fault};
use crate::support::alloc::Allocator;
use crate::support::memchr::memchr;
use crate::support::vec::Vec;
use std::io;
use std::io::BufRead;

/// Returns the length up to and including the first line feed, or the complete length if there is
/// none.
fn len_through_feed(bytes: &[u8]) -> usize {
    match memchr(b'\n', bytes) {
        Some(at) => at + 1,
        None => bytes.len(),
    }
}

/// Appends one chunk to the line, up to and including the chunk's first line feed. Returns whether
/// the line is complete, and fails if the reader fails or memory can't be allocated.
fn read_chunk<R: BufRead, A: Allocator>(
    input: &mut R,
    line: &mut Vec<u8, A>,
) -> Result<bool, StreamFault> {
    let available = match input.fill_buf() {
        Ok(available) => available,
        Err(error) => return Err(read_fault(error)),
    };
    let end = len_through_feed(available);
    if line.extend_from_slice(&available[..end]).is_err() {
        return Err(StreamFault::Memory);
    }
    let is_whole = end == 0 || available[end - 1] == b'\n';
    input.consume(end);
    Ok(is_whole)
}

/// Appends the rest of a line to the buffer, including its line feed. Fails if the reader fails or
/// memory can't be allocated.
pub(super) fn read_line<R: BufRead, A: Allocator>(
    input: &mut R,
    line: &mut Vec<u8, A>,
) -> Result<(), StreamFault> {
    for _ in 0..u64::MAX {
        if read_chunk(input, line)? {
            return Ok(());
        }
    }
    Err(StreamFault::Read(io::Error::other("too many fillings")))
}
