// Made from crates/demangle_vectors/src/lib.rt by packaging/crate/erase.py: edit that file instead.
//! Tests with v0 symbols and with vectors of the Rust crate, and what all tests of symbols share.

use crate::support::format;
use crate::support::string::String;
use crate::support::texts::RepeatIn;
use crate::support::vec::Vec;
#[cfg(test)]
mod tests;

use crate::rustc_demangle::sink::{ArraySink, WriteSink};
use crate::rustc_demangle::{Demangle, demangle};
use crate::support::alloc::{AllocError, Global};

/// Returns `true` if a text prints as `text`, with the hash or without it, in at most 4,096 bytes.
pub fn printed_is(symbol: &str, include_hash: bool, text: &str) -> bool {
    let mut sink: ArraySink<4096> = ArraySink::new();
    demangle(symbol).write_to(&mut sink, include_hash).is_ok() && sink.as_str() == text
}

/// Returns the printed text of a symbol, of any length.
pub fn printed_by(
    alloc: Global,
    symbol: &Demangle<'_>,
    include_hash: bool,
) -> Result<Vec<u8>, AllocError> {
    let mut text = Vec::new(alloc);
    let mut sink = WriteSink::new(&mut text);
    let _ = symbol.write_to(&mut sink, include_hash);
    // A writer to memory fails only if an allocation fails.
    match sink.into_fault() {
        Some(_) => Err(AllocError),
        None => Ok(text),
    }
}

/// Returns the printed form of a text, of any length.
pub fn print_symbol(
    alloc: Global,
    symbol: &str,
    include_hash: bool,
) -> Result<Vec<u8>, AllocError> {
    printed_by(alloc, &demangle(symbol), include_hash)
}

/// Returns a text repeated this many times between two others.
pub fn repeat_between(
    alloc: Global,
    head: &str,
    text: &str,
    count: usize,
    tail: &str,
) -> Result<String, AllocError> {
    let middle = text.repeat_in(alloc, count)?;
    format!(in alloc; "{head}{middle}{tail}")
}
