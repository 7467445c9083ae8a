// Made from crates/kodliwe_program/src/error.rt by packaging/crate/erase.py: edit that file instead.
//! Writes error messages.
use crate::support::alloc::{AllocError, Global};
use crate::support::format;
use crate::support::string::String;
use kodliwe::internal::rustc_demangle::StreamFault;
use std::io;
use std::io::Write;

pub const OUT_OF_MEMORY: &str = "kodliwe: out of memory\n";

/// An error, and the name of the input that was read when it occurred.
pub struct InputError<'a> {
    pub name: &'a str,
    pub fault: StreamFault,
}

/// Returns why a call failed, without the number that `std` adds after the system's text. Fails if
/// memory can't be allocated.
fn reason(alloc: Global, error: &io::Error) -> Result<String, AllocError> {
    let text = format!(in alloc; "{error}")?;
    match text.as_str().split_once(" (os error ") {
        Some((prefix, _)) => String::from_str(alloc, prefix),
        None => Ok(text),
    }
}

/// Returns whether a text has a character that is not printable, by the rule of Rust's `Debug`.
fn has_unprintable(text: &str) -> bool {
    // A quote and a backslash are printable, though `escape_debug` puts a backslash before them.
    let mut is_escaped = false;
    for c in text.escape_debug() {
        if is_escaped && !matches!(c, '\'' | '"' | '\\') {
            return true;
        }
        is_escaped = c == '\\' && !is_escaped;
    }
    false
}

/// Returns a text in quotes. If it has a character that is not printable, it is escaped as in
/// Rust's literals. Fails if memory can't be allocated.
pub fn quoted(alloc: Global, text: &str) -> Result<String, AllocError> {
    if has_unprintable(text) {
        format!(in alloc; "'{}'", text.escape_debug())
    } else {
        format!(in alloc; "'{text}'")
    }
}

/// Returns a name as a message shows it. It is in quotes if it is empty or has a character that is
/// not printable. Fails if memory can't be allocated.
pub fn shown_name(alloc: Global, name: &str) -> Result<String, AllocError> {
    if name.is_empty() || has_unprintable(name) {
        quoted(alloc, name)
    } else {
        String::from_str(alloc, name)
    }
}

/// Returns the line for a call that failed on something with a name. Fails if memory can't be
/// allocated.
fn line_of(alloc: Global, name: &str, error: &io::Error) -> Result<String, AllocError> {
    let name = shown_name(alloc, name)?;
    let reason = reason(alloc, error)?;
    format!(in alloc; "kodliwe: {name}: {reason}\n")
}

/// Writes the line for a call that failed on something with a name, by one call of the writer. An
/// error of `errors` is ignored.
pub fn report_call<E: Write>(alloc: Global, errors: &mut E, name: &str, error: &io::Error) {
    let _ = match line_of(alloc, name, error) {
        Ok(line) => errors.write_all(line.as_bytes()),
        Err(_) => errors.write_all(OUT_OF_MEMORY.as_bytes()),
    };
}

/// Writes the line for an error, as `report_call` does.
pub fn report<E: Write>(alloc: Global, errors: &mut E, fault: &InputError<'_>) {
    match &fault.fault {
        StreamFault::Read(error) => report_call(alloc, errors, fault.name, error),
        StreamFault::Write(error) => report_call(alloc, errors, "write failed", error),
        StreamFault::Memory | StreamFault::NotUtf8 => {
            let _ = errors.write_all(OUT_OF_MEMORY.as_bytes());
        }
    }
}
