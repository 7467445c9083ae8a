// Made from crates/kodliwe_program/src/filtering.rt by packaging/crate/erase.py: edit that file instead.
//! Writes filtered texts and arguments into any writer.

use crate::kodliwe_program::error::{InputError, report};
use crate::kodliwe_program::noting::NotingReader;
use crate::support::alloc::{Allocator, Global};
use crate::support::io::BufReader;
use crate::support::vec::Vec;
use kodliwe::internal::demangle_sink::WriteSink;
use kodliwe::internal::rustc_demangle::{
    BytesFilter, Demangle, Format, StreamFault, SymbolMemo, demangle_bytes_counted, try_demangle,
};
use std::io;
use std::io::{BufRead, ErrorKind, Read, Write};

/// The size in bytes of the buffers.
pub const BUFFER: usize = 65_536;

/// The memory and the options of a run.
#[derive(Clone, Copy)]
pub struct Settings {
    pub alloc: Global,
    /// How symbols are printed.
    pub format: Format,
}

/// A reader, and its name in a message.
pub struct Input<'a, R> {
    pub name: &'a str,
    pub reader: R,
}

/// A part of the output.
pub enum Part<'a, R> {
    /// A text that is filtered.
    Text(Input<'a, R>),
    /// A SYMBOL argument.
    Argument(&'a str),
}

struct Symbols {
    memo: SymbolMemo,
}

/// How filtering ended.
#[derive(Clone, Copy, Debug, PartialEq, Eq)]
pub enum FilterOutcome {
    /// The complete output was written.
    Complete,
    /// The reader of the output has closed it.
    Closed,
    /// An input can't be read, or memory can't be allocated.
    ReadFailed,
    /// The output can't be written.
    WriteFailed,
}

impl FilterOutcome {
    /// Returns the exit status.
    pub fn status(self) -> u8 {
        match self {
            FilterOutcome::Complete | FilterOutcome::Closed => 0,
            FilterOutcome::ReadFailed | FilterOutcome::WriteFailed => 1,
        }
    }
}

/// Flushes the output, and repeats that if a signal interrupts it. Fails if the writer fails.
fn flush<W: Write>(output: &mut W) -> Result<(), StreamFault> {
    for _ in 0..=u64::MAX {
        match output.flush() {
            Ok(()) => return Ok(()),
            Err(error) if error.kind() == ErrorKind::Interrupted => {}
            Err(error) => return Err(StreamFault::Write(error)),
        }
    }
    Err(StreamFault::Write(io::Error::other("too many signals")))
}

/// Flushes the output if the next step reads, so that nothing is held while the program waits.
/// Fails if the writer fails.
fn flush_pending<R: Read, W: Write, B: Allocator>(
    input: &BufReader<R, B>,
    output: &mut W,
) -> Result<(), StreamFault> {
    if input.buffer().is_empty() {
        flush(output)
    } else {
        Ok(())
    }
}

/// Makes a step of the filter, and returns `false` at the end of the input. A step uses nothing if
/// a signal interrupts the reader. Fails as the step does.
fn step<R: BufRead, W: Write, A: Allocator>(
    filter: &mut BytesFilter<A>,
    input: &mut R,
    output: &mut W,
    symbols: &mut Symbols,
) -> Result<bool, StreamFault> {
    match filter.step(input, output, &mut symbols.memo) {
        Err(StreamFault::Read(error)) if error.kind() == ErrorKind::Interrupted => Ok(true),
        stepped => stepped,
    }
}

/// Flushes the output if the next step reads, and then makes that step. Returns `false` at the end
/// of the input. Fails if one of the two fails.
fn flush_then_step<R: Read, W: Write, A: Allocator, B: Allocator>(
    filter: &mut BytesFilter<A>,
    input: &mut BufReader<R, B>,
    output: &mut W,
    symbols: &mut Symbols,
) -> Result<bool, StreamFault> {
    flush_pending(input, output)?;
    step(filter, input, output, symbols)
}

/// Filters the remaining input of a reader. The output is flushed before each read. Fails if the
/// reader or the writer fails, or if memory can't be allocated.
fn filter_steps<R: Read, W: Write, A: Allocator, B: Allocator>(
    filter: &mut BytesFilter<A>,
    input: &mut BufReader<R, B>,
    output: &mut W,
    symbols: &mut Symbols,
) -> Result<(), StreamFault> {
    for _ in 0..=u64::MAX {
        if !flush_then_step(filter, input, output, symbols)? {
            return Ok(());
        }
    }
    Err(StreamFault::Read(io::Error::other("too many steps")))
}

/// Filters the remaining input of one reader through a buffer. Fails as `filter_steps` does.
fn filter_reader<R: Read, W: Write>(
    alloc: Global,
    reader: R,
    output: &mut W,
    symbols: &mut Symbols,
) -> Result<(), StreamFault> {
    let Ok(mut input) = BufReader::with_capacity(alloc, BUFFER, reader) else {
        return Err(StreamFault::Memory);
    };
    let mut filter = BytesFilter::new(alloc);
    filter_steps(&mut filter, &mut input, output, symbols)
}

/// Writes a symbol, with a separate write for each piece. Fails if the writer fails.
fn write_symbol<W: Write>(
    symbol: &Demangle<'_>,
    output: &mut W,
    format: Format,
) -> Result<(), StreamFault> {
    let mut sink = WriteSink::new(output);
    // If it fails, the sink holds the writer's error.
    let _ = symbol.write_formatted(&mut sink, format);
    match sink.into_fault() {
        Some(error) => Err(StreamFault::Write(error)),
        None => Ok(()),
    }
}

/// Writes an argument as `argument_in` defines, without a line feed. Fails if the writer fails or
/// memory can't be allocated.
fn write_argument<W: Write>(
    argument: &str,
    output: &mut W,
    symbols: &mut Symbols,
) -> Result<(), StreamFault> {
    match try_demangle(argument) {
        Ok(symbol) => {
            let format = symbols.memo.format();
            write_symbol(&symbol, output, format)
        }
        Err(_) => {
            let mut text = argument.as_bytes();
            demangle_bytes_counted(&mut text, output, &mut symbols.memo)
        }
    }
}

/// Writes an argument and a line feed. Fails as `write_argument` does.
fn write_line<W: Write>(
    argument: &str,
    output: &mut W,
    symbols: &mut Symbols,
) -> Result<(), StreamFault> {
    write_argument(argument, output, symbols)?;
    match output.write_all(b"\n") {
        Ok(()) => Ok(()),
        Err(error) => Err(StreamFault::Write(error)),
    }
}

impl<'a, R: Read> Part<'a, R> {
    /// Writes what the part prints. Writes a note on an input that is compressed or encoded. Fails
    /// if a reader or the writer fails, or if memory can't be allocated.
    fn write<W: Write, E: Write>(
        self,
        settings: Settings,
        output: &mut W,
        errors: &mut E,
        symbols: &mut Symbols,
    ) -> Result<(), InputError<'a>> {
        match self {
            Part::Text(Input { name, reader }) => {
                let noting = NotingReader::new(settings.alloc, name, reader, errors);
                match filter_reader(settings.alloc, noting, output, symbols) {
                    Ok(()) => Ok(()),
                    Err(fault) => Err(InputError { name, fault }),
                }
            }
            Part::Argument(argument) => match write_line(argument, output, symbols) {
                Ok(()) => Ok(()),
                Err(fault) => Err(InputError { name: "", fault }),
            },
        }
    }
}

/// Writes what each part prints, in order and with one memo, and then flushes the output. Stops at
/// the first error, and returns it with the name of its input.
fn write_parts<'a, R: Read, W: Write, E: Write>(
    settings: Settings,
    parts: Vec<Part<'a, R>>,
    output: &mut W,
    errors: &mut E,
) -> Result<(), InputError<'a>> {
    let mut symbols = Symbols {
        memo: SymbolMemo::with_format(settings.alloc, settings.format),
    };
    for part in parts {
        part.write(settings, output, errors, &mut symbols)?;
    }

    match flush(output) {
        Ok(()) => Ok(()),
        Err(fault) => Err(InputError { name: "", fault }),
    }
}

/// Returns how filtering ended after an error.
fn outcome_of(fault: &StreamFault) -> FilterOutcome {
    match fault {
        StreamFault::Write(error) => {
            if error.kind() == ErrorKind::BrokenPipe {
                FilterOutcome::Closed
            } else {
                FilterOutcome::WriteFailed
            }
        }
        _ => FilterOutcome::ReadFailed,
    }
}

/// Writes what the parts print, in order: each text filtered on its own, and each argument as a
/// line. Each path is cut at the limits. Writes a line if an input can't be read, the output can't
/// be written, or memory can't be allocated. Writes a note on each input that is compressed or
/// encoded.
///
/// On `Complete`, the writer appended what all parts print. On `ReadFailed`, it appended what the
/// parts before one print, and a filtered prefix of that one. The prefix is not cut inside a
/// symbol. Nothing is known of the bytes that a writer accepted in a call that failed. All that was
/// written before is flushed in any case. An error of `errors` is ignored.
///
/// With a linear limit of bytes, the parts print at most 1,000 bytes for each of their own, of which
/// each argument has a line feed. On `Complete` and `ReadFailed`, the writer appended no more.
pub fn filter_all<R: Read, W: Write, E: Write>(
    settings: Settings,
    parts: Vec<Part<'_, R>>,
    output: &mut W,
    errors: &mut E,
) -> FilterOutcome {
    let written = write_parts(settings, parts, output, errors);
    let Err(stop) = written else {
        return FilterOutcome::Complete;
    };
    let outcome = outcome_of(&stop.fault);
    if outcome == FilterOutcome::ReadFailed {
        let _ = flush(output);
    }
    if outcome != FilterOutcome::Closed {
        report(settings.alloc, errors, &stop);
    }
    outcome
}
