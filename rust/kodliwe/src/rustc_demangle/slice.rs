// Made from crates/rustc_demangle/src/slice.rt by packaging/crate/erase.py: edit that file instead.
//! Demangles the symbols of any bytes in memory.

use crate::demangle_sink::{SinkRefused, SliceSink};
use crate::rustc_demangle::byte_before::plain_len;
use crate::rustc_demangle::runs::{may_be_replaced, run_len, run_start, run_text};
use crate::rustc_demangle::text::put_run;

use crate::demangle_value::format::{Format, SizeLimit, unfolded_form};

/// Writes the replacement of a candidate. Fails if the sink fails.
fn put_candidate<'b>(
    candidate: &[u8],
    out: &mut SliceSink<'b>,
    format: Format,
) -> Result<(), SinkRefused> {
    if !may_be_replaced(candidate) {
        return out.put_bytes(candidate);
    }
    put_run(run_text(candidate), out, format)
}

/// Writes bytes, which need not be UTF-8, with each symbol of them demangled. Fails if the sink
/// fails.
fn put_slice<'b>(text: &[u8], out: &mut SliceSink<'b>, format: Format) -> Result<(), SinkRefused> {
    let mut rest = text;
    while let Some(start) = run_start(rest) {
        let (kept, found) = rest.split_at(plain_len(&rest[..start]));
        let (candidate, following) = found.split_at(run_len(found));
        out.put_bytes(kept)?;
        put_candidate(candidate, out, format)?;
        rest = following;
    }
    out.put_bytes(rest)
}

/// Writes any bytes into memory, with each symbol demangled. Returns their size, or `None` if it
/// exceeds `usize::MAX`.
fn write_slice(text: &[u8], out: &mut [u8], format: Format) -> Option<usize> {
    let mut sink = SliceSink::new(out);
    match put_slice(text, &mut sink, format) {
        Ok(()) => Some(sink.len()),
        Err(_) => None,
    }
}

/// Writes any bytes into memory with each symbol of them demangled, as far as there is room.
/// Returns the size of the complete output, including the bytes for which there was no room.
///
/// Symbols are found and cut as by `demangle_bytes_limited`. All other bytes are written unchanged.
/// The size does not depend on the size of the memory. The memory after the written bytes stays
/// unchanged. It does not allocate.
///
/// Returns `None` if the size exceeds `usize::MAX`.
pub fn demangle_slice(
    text: &[u8],
    out: &mut [u8],
    include_hash: bool,
    limit: usize,
) -> Option<usize> {
    let limit = SizeLimit::Bytes(limit);
    let format = Format::bounded(unfolded_form(include_hash), limit);
    demangle_slice_formatted(text, out, format)
}

/// Writes any bytes into memory with each symbol of them demangled in a format, as `demangle_slice`
/// does. Returns the size of the complete output, or `None` if it exceeds `usize::MAX`.
pub fn demangle_slice_formatted(text: &[u8], out: &mut [u8], format: Format) -> Option<usize> {
    write_slice(text, out, format)
}
