// Made from crates/demangle_sink/src/chars.rt by packaging/crate/erase.py: edit that file instead.
//! Puts characters into a sink.

use crate::demangle_sink::{SinkRefused, SizeLimitedFmtAdapter, TextSink};

/// Puts one character as one piece.
///
/// # Errors
///
/// Returns `SinkRefused` if the sink or the size limit rejects the piece.
pub fn put_char<S: TextSink>(
    c: char,
    out: &mut SizeLimitedFmtAdapter<'_, S>,
) -> Result<(), SinkRefused> {
    out.put(c.encode_utf8(&mut [0; 4]))
}

/// Puts characters in order, each as one piece.
///
/// # Errors
///
/// Returns `SinkRefused` if the sink or the size limit rejects a piece. No later piece is sent.
pub fn put_chars<S: TextSink>(
    characters: &[char],
    out: &mut SizeLimitedFmtAdapter<'_, S>,
) -> Result<(), SinkRefused> {
    for c in characters {
        put_char(*c, out)?;
    }
    Ok(())
}
