// Made from crates/kodliwe_program/src/program/hint.rt by packaging/crate/erase.py: edit that file instead.
//! Notes an argument that may be meant as a file.
use crate::kodliwe_program::arguments::InputSource;
use crate::kodliwe_program::error::quoted;
use crate::kodliwe_program::filtering::Settings;
use crate::kodliwe_program::program::write_line;
use crate::support::alloc::{AllocError, Global};
use crate::support::format;
use crate::support::fs::Files;
use crate::support::string::String;
use crate::support::vec::Vec;
use kodliwe::internal::rustc_demangle::{demangle_bytes_formatted, run_start, try_demangle};
use std::io::Write;

/// Returns whether an argument is a symbol or contains one, so that it does not print unchanged.
/// Fails if memory can't be allocated.
fn has_symbol(settings: Settings, argument: &str) -> Result<bool, AllocError> {
    if try_demangle(argument).is_ok() {
        return Ok(true);
    }
    if run_start(argument.as_bytes()).is_none() {
        return Ok(false);
    }
    let mut filtered = Vec::new(settings.alloc);
    let mut text = argument.as_bytes();
    match demangle_bytes_formatted(settings.alloc, &mut text, &mut filtered, settings.format) {
        Ok(()) => Ok(filtered.as_slice() != argument.as_bytes()),
        Err(_) => Err(AllocError),
    }
}

/// Returns the first argument that has no symbol. Fails if memory can't be allocated.
fn plain_argument<'a>(
    settings: Settings,
    sources: &[InputSource<'a>],
) -> Result<Option<&'a str>, AllocError> {
    for source in sources {
        if let InputSource::Symbol(argument) = source {
            if !has_symbol(settings, argument)? {
                return Ok(Some(*argument));
            }
        }
    }
    Ok(None)
}

/// Returns the note for an argument that names a file. Fails if memory can't be allocated.
fn file_note(alloc: Global, argument: &str) -> Result<String, AllocError> {
    let name = quoted(alloc, argument)?;
    format!(in alloc; "kodliwe: note: {name} is a file; use -i to read it\n")
}

/// Writes a note if the first argument without a symbol names a regular file: a user may have meant
/// the file.
pub(super) fn note_file<F: Files, E: Write>(
    settings: Settings,
    files: &F,
    errors: &mut E,
    sources: &[InputSource<'_>],
) {
    let argument = match plain_argument(settings, sources) {
        Ok(Some(argument)) => argument,
        Ok(None) | Err(_) => return,
    };
    let is_file = match files.metadata(argument) {
        Ok(found) => found.is_file(),
        Err(_) => false,
    };
    if is_file {
        write_line(errors, file_note(settings.alloc, argument));
    }
}
