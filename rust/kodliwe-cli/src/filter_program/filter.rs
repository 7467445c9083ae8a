// Made from crates/filter_program/src/filter.rt by packaging/crate/erase.py: edit that file instead.
//! The program, over any streams.

use crate::support::alloc::Global;
use crate::support::string::String;
use kodliwe::internal::rustc_demangle::{StreamFault, demangle_stream_named};
use std::io::{BufRead, Write};

pub const USAGE: &str = "usage: demangle_filter [--no-hash]\n";

pub const OUT_OF_MEMORY: &str = "demangle_filter: out of memory\n";

const WRITE_FAILED: &str = "demangle_filter: write failed\n";

/// Writes one line to `errors` and returns the status. An error of the write is ignored.
pub fn report<E: Write>(errors: &mut E, line: &str, status: u8) -> u8 {
    let _ = errors.write_all(line.as_bytes());
    status
}

/// Returns the line that reports an error.
fn line_of(fault: &StreamFault) -> &'static str {
    match fault {
        StreamFault::Read(_) => "demangle_filter: read failed\n",
        StreamFault::NotUtf8 => "demangle_filter: not UTF-8\n",
        StreamFault::Write(_) => WRITE_FAILED,
        StreamFault::Memory => OUT_OF_MEMORY,
    }
}

/// Demangles the input.
///
/// The output is flushed in any case.
///
/// # Errors
///
/// Returns the line that reports the error. If the flush fails, it reports that error and no other.
fn filter<R: BufRead, W: Write>(
    alloc: Global,
    input: &mut R,
    output: &mut W,
    include_hash: bool,
) -> Result<(), &'static str> {
    let copied = demangle_stream_named(alloc, input, output, include_hash);
    if output.flush().is_err() {
        return Err(WRITE_FAILED);
    }
    copied.map_err(|fault| line_of(&fault))
}

/// Runs the program with the arguments after its name. Returns the exit status.
///
/// The arguments are checked before anything is read. An error of `errors` is ignored.
pub fn filter_run<R: BufRead, W: Write, E: Write>(
    alloc: Global,
    args: &[String],
    input: &mut R,
    output: &mut W,
    errors: &mut E,
) -> u8 {
    let include_hash = match args {
        [] => true,
        [arg] if arg.as_str() == "--no-hash" => false,
        _ => return report(errors, USAGE, 2),
    };
    match filter(alloc, input, output, include_hash) {
        Ok(()) => 0,
        Err(line) => report(errors, line, 1),
    }
}
