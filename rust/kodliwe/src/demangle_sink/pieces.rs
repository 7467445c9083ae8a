// Made from crates/demangle_sink/src/pieces.rt by packaging/crate/erase.py: edit that file instead.
//! Puts several pieces into a sink.

use crate::demangle_sink::{SinkRefused, SizeLimitedFmtAdapter, TextSink};

/// Puts pieces in order.
///
/// # Errors
///
/// Returns `SinkRefused` if the sink or the size limit rejects a piece. No later piece is sent.
pub fn put_each<S: TextSink>(
    pieces: &[&str],
    out: &mut SizeLimitedFmtAdapter<'_, S>,
) -> Result<(), SinkRefused> {
    for piece in pieces {
        out.put(piece)?;
    }
    Ok(())
}
