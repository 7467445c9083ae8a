// Made from crates/rustc_demangle/src/stream/line_writer.rt by packaging/crate/erase.py: edit that file instead.
//! Writes lines and runs with their symbols demangled.

use crate::demangle_sink::WriteSink;
use crate::rustc_demangle::text::demangle_text;

use crate::demangle_value::coalescing::write_at_once;
use crate::demangle_value::format::Format;
use crate::demangle_value::value::{Demangle, has_style, read_run};
use std::io;
use std::io::Write;

/// Writes a symbol, by one call of the writer if its text has up to 2,048 bytes. A longer text is
/// written in parts. Fails if the writer fails.
fn write_symbol<W: Write>(symbol: &Demangle<'_>, output: &mut W, format: Format) -> io::Result<()> {
    let mut sink = WriteSink::new(output);
    let written = write_at_once(symbol, &mut sink, format);
    match sink.into_fault() {
        Some(error) => Err(error),
        // If it fails, the sink holds the writer's error.
        None => written.map_err(|_| io::Error::other("the sink failed")),
    }
}

/// Writes the replacement of a run: the printed symbol, or the run itself if it is not a symbol.
/// Either is one call of the writer if it has up to 2,048 bytes. Fails if the writer fails.
pub(super) fn write_run<W: Write>(run: &str, output: &mut W, format: Format) -> io::Result<()> {
    let symbol = read_run(run);
    if has_style(&symbol) {
        write_symbol(&symbol, output, format)
    } else {
        output.write_all(run.as_bytes())
    }
}

/// Writes a line with each symbol of it demangled. Each plain text and each piece is a separate
/// write. Fails if the writer fails.
pub(super) fn demangle_line<W: Write>(
    line: &str,
    output: &mut W,
    include_hash: bool,
) -> io::Result<()> {
    let mut sink = WriteSink::new(output);
    // If it fails, the sink holds the writer's error.
    let _ = demangle_text(line, &mut sink, include_hash);
    sink.into_result()
}
