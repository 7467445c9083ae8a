// Made from crates/kodliwe_program/src/program.rt by packaging/crate/erase.py: edit that file instead.
//! Runs the program on any file system and standard streams.

use crate::support::format;
use crate::support::string::String;
use crate::support::vec::Vec;
mod hint;
mod output;

use crate::kodliwe_program::about::About;
use crate::kodliwe_program::arguments::{
    Command, InputSource, Request, Target, UsageError, parse_arguments,
};
use crate::kodliwe_program::error::{OUT_OF_MEMORY, quoted, report_call, shown_name};
use crate::kodliwe_program::filtering::{Input, Part, Settings};
use crate::kodliwe_program::help::WAITING;
use crate::kodliwe_program::inputs::{LineReader, STDIN_NAME, SourceReader};
use crate::kodliwe_program::program::hint::note_file;
use crate::kodliwe_program::program::output::{Filtering, SourceParts};
use crate::kodliwe_program::same_file::input_that_is_output;
use crate::support::alloc::{AllocError, Global};
use crate::support::fs::Files;
use crate::support::io::{IsTerminal, Stdin};
use crate::support::os::fd::AsFd;
use kodliwe::internal::rustc_demangle::{Form, Format, SizeLimit};
use std::io;
use std::io::{ErrorKind, Write};

/// The files and streams that the program reads and writes, and its memory.
pub struct Host<'a, F: Files, W: Write, E: Write> {
    pub alloc: Global,
    pub files: &'a F,
    pub stdin: Stdin,
    pub stdout: W,
    pub errors: E,
}

/// Writes a line to `errors`, and returns the status. An error of `errors` is ignored.
fn report_line<E: Write>(errors: &mut E, line: &str, status: u8) -> u8 {
    let _ = errors.write_all(line.as_bytes());
    status
}

/// Returns the name of the option in an argument, which may include the option's value.
fn option_name<'a>(argument: &str, short: &'a str, long: &'a str) -> &'a str {
    if argument.starts_with("--") {
        long
    } else {
        short
    }
}

/// Returns the line for arguments that are not valid. Fails if memory can't be allocated.
fn usage_line(alloc: Global, fault: UsageError<'_>) -> Result<String, AllocError> {
    match fault {
        UsageError::Unknown(argument) => {
            let argument = quoted(alloc, argument)?;
            format!(in alloc; "kodliwe: unknown option {argument}; try 'kodliwe --help'\n")
        }
        UsageError::NoFile(argument) => {
            format!(in alloc; "kodliwe: option '{argument}' needs a FILE; try 'kodliwe --help'\n")
        }
        UsageError::NoNumber(argument) => {
            let needs = "needs a number of BYTES";
            format!(in alloc; "kodliwe: option '{argument}' {needs}; try 'kodliwe --help'\n")
        }
        UsageError::BadNumber(argument, value) => {
            let name = option_name(argument, "-l", "--limit");
            let value = quoted(alloc, value)?;
            let fault = "is not a number of bytes below 2^64";
            format!(in alloc; "kodliwe: option '{name}': {value} {fault}\n")
        }
        UsageError::SecondOutput(argument) => {
            let name = option_name(argument, "-o", "--output");
            format!(in alloc; "kodliwe: option '{name}' may be given once; try 'kodliwe --help'\n")
        }
        UsageError::NoShell => {
            let line = "kodliwe: option '--completions' needs a SHELL; try 'kodliwe --help'\n";
            String::from_str(alloc, line)
        }
        UsageError::BadShell(name) => {
            let name = quoted(alloc, name)?;
            format!(in alloc; "kodliwe: option '--completions': {name} is not bash, zsh or fish\n")
        }
        UsageError::Memory => Err(AllocError),
    }
}

/// Writes the line for arguments that are not valid, and returns the status.
fn report_usage_error<E: Write>(alloc: Global, errors: &mut E, fault: UsageError<'_>) -> u8 {
    match usage_line(alloc, fault) {
        Ok(line) => report_line(errors, line.as_str(), 2),
        Err(_) => report_line(errors, OUT_OF_MEMORY, 1),
    }
}

/// Writes a text about the program, and returns the status. It is not an error if the reader of the
/// output has closed it.
fn print<W: Write, E: Write>(alloc: Global, about: About, output: &mut W, errors: &mut E) -> u8 {
    match about.write(output) {
        Ok(()) => 0,
        Err(error) if error.kind() == ErrorKind::BrokenPipe => 0,
        Err(error) => {
            report_call(alloc, errors, "write failed", &error);
            1
        }
    }
}

/// Returns the parts of the output that the sources are, in order. An argument after an input
/// starts a line. Fails if memory can't be allocated.
fn parts_of<'a, F: Files>(
    alloc: Global,
    files: &'a F,
    stdin: Stdin,
    sources: &[InputSource<'a>],
) -> Result<SourceParts<'a, F>, AllocError> {
    let mut parts = Vec::new(alloc);
    for (at, source) in sources.iter().enumerate() {
        let next = sources.get(at.saturating_add(1));
        let is_before_argument = matches!(next, Some(InputSource::Symbol(_)));
        let (name, reader) = match source {
            InputSource::Stdin => (STDIN_NAME, SourceReader::Stdin(stdin)),
            InputSource::File(path) => (*path, SourceReader::of_file(files, path)),
            InputSource::Symbol(argument) => {
                parts.push(Part::Argument(argument))?;
                continue;
            }
        };
        let reader = LineReader::new(reader, is_before_argument);
        parts.push(Part::Text(Input { name, reader }))?;
    }
    Ok(parts)
}

/// Adds standard input if there are no sources. Fails if memory can't be allocated.
fn add_default(sources: &mut Vec<InputSource<'_>>) -> Result<(), AllocError> {
    if sources.is_empty() {
        sources.push(InputSource::Stdin)?;
    }
    Ok(())
}

/// Returns the limit of the paths, from the value of `-l`, if it was given.
fn size_limit(limit: Option<usize>) -> SizeLimit {
    match limit {
        Some(limit) => SizeLimit::Bytes(limit),
        None => SizeLimit::Linear,
    }
}

/// Returns the settings that the arguments request.
fn settings_of(alloc: Global, request: &Request<'_>) -> Settings {
    let form = Form {
        include_hash: request.include_hash,
        fold_arguments: request.fold_arguments,
    };
    Settings {
        alloc,
        format: Format::bounded(form, size_limit(request.limit)),
    }
}

/// Writes a line, or says that there was no memory for it. An error of `errors` is ignored.
fn write_line<E: Write>(errors: &mut E, line: Result<String, AllocError>) {
    let _ = match line {
        Ok(line) => errors.write_all(line.as_bytes()),
        Err(_) => errors.write_all(OUT_OF_MEMORY.as_bytes()),
    };
}

/// Returns the line for an input that is the output. Fails if memory can't be allocated.
fn same_file_line(alloc: Global, name: &str) -> Result<String, AllocError> {
    let name = shown_name(alloc, name)?;
    format!(in alloc; "kodliwe: {name}: input file is output file\n")
}

/// Returns whether a source is the file that standard output writes to, and writes a line if so.
fn reads_output<F: Files, E: Write>(
    alloc: Global,
    files: &F,
    errors: &mut E,
    sources: &[InputSource<'_>],
) -> bool {
    match input_that_is_output(files, sources) {
        Some(name) => {
            write_line(errors, same_file_line(alloc, name));
            true
        }
        None => false,
    }
}

/// Adds standard input if there are no sources, and then writes a note if it is a terminal. Fails
/// if memory can't be allocated.
fn read_default<E: Write>(
    stdin: &Stdin,
    errors: &mut E,
    sources: &mut Vec<InputSource<'_>>,
) -> Result<(), AllocError> {
    let is_default = sources.is_empty();
    add_default(sources)?;
    if is_default && stdin.is_terminal() {
        let _ = errors.write_all(WAITING.as_bytes());
    }
    Ok(())
}

/// Returns the output. The names of standard output as a file are standard output too, which keeps
/// its position.
fn target_of(output: Option<Target<'_>>) -> Target<'_> {
    match output {
        Some(Target::File("/dev/stdout" | "/dev/fd/1" | "/proc/self/fd/1")) | None => {
            Target::Stdout
        }
        Some(target) => target,
    }
}

/// Filters the texts that the arguments request, and returns the exit status.
fn filter<'a, F: Files, W: Write, E: Write>(host: Host<'a, F, W, E>, request: Request<'a>) -> u8
where
    F::File: AsFd,
{
    let Host {
        alloc,
        files,
        stdin,
        stdout,
        mut errors,
    } = host;
    let settings = settings_of(alloc, &request);
    let target = target_of(request.output);
    let mut sources = request.sources;
    if read_default(&stdin, &mut errors, &mut sources).is_err() {
        return report_line(&mut errors, OUT_OF_MEMORY, 1);
    }
    if target == Target::Stdout && reads_output(alloc, files, &mut errors, sources.as_slice()) {
        return 1;
    }
    let Ok(parts) = parts_of(alloc, files, stdin, sources.as_slice()) else {
        return report_line(&mut errors, OUT_OF_MEMORY, 1);
    };
    let filtering = Filtering {
        files,
        parts,
        settings,
    };
    let status = match target {
        Target::Stdout => filtering.write_to(stdout, &mut errors),
        Target::File(path) => filtering.write_file(path, &mut errors),
    };
    if status == 0 {
        note_file(settings, files, &mut errors, sources.as_slice());
    }
    status
}

/// Runs the program on the arguments after its name, and returns the exit status.
pub fn start<'a, F: Files, W: Write, E: Write>(
    host: Host<'a, F, W, E>,
    arguments: &'a [String],
) -> u8
where
    F::File: AsFd,
{
    let request = match parse_arguments(host.alloc, arguments) {
        Ok(Command::Filter(request)) => return filter(host, request),
        Ok(Command::Print(about)) => Ok(about),
        Err(fault) => Err(fault),
    };
    let Host {
        alloc,
        mut stdout,
        mut errors,
        ..
    } = host;
    match request {
        Ok(about) => print(alloc, about, &mut stdout, &mut errors),
        Err(fault) => report_usage_error(alloc, &mut errors, fault),
    }
}

/// Returns the line and the exit status if the arguments can't be read.
pub fn arguments_error(error: &io::Error) -> (&'static str, u8) {
    if error.kind() == ErrorKind::OutOfMemory {
        (OUT_OF_MEMORY, 1)
    } else {
        ("kodliwe: a word is not UTF-8; try 'kodliwe --help'\n", 2)
    }
}
