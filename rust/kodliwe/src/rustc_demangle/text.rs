// Made from crates/rustc_demangle/src/text.rt by packaging/crate/erase.py: edit that file instead.
//! Demangles the symbols of a text in memory.

use crate::demangle_sink::{SinkRefused, TextSink, put_piece};
use crate::rustc_demangle::runs::{run_len, run_start};

use crate::demangle_value::format::{Format, MAX_SIZE};
use crate::demangle_value::value::printing::write_pieces;
use crate::demangle_value::value::{has_style, read_run};

/// Writes the replacement of a run: the pieces of its symbol, or the run itself if it is not a
/// symbol. Fails if the sink fails.
pub(crate) fn put_run<S: TextSink>(
    run: &str,
    out: &mut S,
    format: Format,
) -> Result<(), SinkRefused> {
    let symbol = read_run(run);
    if has_style(&symbol) {
        write_pieces(&symbol, out, format)
    } else {
        put_piece(run, out)
    }
}

/// Writes a text with each symbol of it demangled, in one pass over it. Fails if the sink fails.
fn put_text<S: TextSink>(text: &str, out: &mut S, format: Format) -> Result<(), SinkRefused> {
    let mut rest = text;
    while let Some(start) = run_start(rest.as_bytes()) {
        let (kept, found) = rest.split_at(start);
        let (run, following) = found.split_at(run_len(found.as_bytes()));
        put_piece(kept, out)?;
        put_run(run, out, format)?;
        rest = following;
    }
    put_piece(rest, out)
}

/// Writes a text into a sink with each symbol of it demangled. Each symbol is cut at `limit` bytes
/// before its suffix, as by `Demangle::write_limited`.
///
/// A candidate symbol, or run, starts with `_ZN` or `_R`. It continues up to the next character
/// that is not an ASCII letter, a digit, `$`, `.` or `_`. A symbol that begins with `_RC` is replaced
/// too, unlike by `demangle_slice`. The text between two runs is one piece, and a run that is not a
/// symbol is another. Each piece is passed to the sink by one `put`. If the sink has room for all
/// pieces, the call succeeds. It does not allocate.
///
/// # Errors
///
/// Fails exactly if the sink failed during this call. The sink then gets no further piece. A sink
/// that keeps what it took holds the pieces before the rejected one.
pub fn demangle_text_limited<S: TextSink>(
    text: &str,
    out: &mut S,
    include_hash: bool,
    limit: usize,
) -> Result<(), SinkRefused> {
    let format = Format::unfolded(include_hash, limit);
    demangle_text_formatted(text, out, format)
}

/// Writes a text into a sink with each symbol of it demangled in a format, as
/// `demangle_text_limited` does.
pub fn demangle_text_formatted<S: TextSink>(
    text: &str,
    out: &mut S,
    format: Format,
) -> Result<(), SinkRefused> {
    put_text(text, out, format)
}

/// Writes a text into a sink with each symbol of it demangled, as `demangle_text_limited` does.
/// Each symbol is cut at 1,000,000 bytes before its suffix.
pub fn demangle_text<S: TextSink>(
    text: &str,
    out: &mut S,
    include_hash: bool,
) -> Result<(), SinkRefused> {
    demangle_text_limited(text, out, include_hash, MAX_SIZE)
}
