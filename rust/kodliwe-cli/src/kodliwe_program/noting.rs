// Made from crates/kodliwe_program/src/noting.rt by packaging/crate/erase.py: edit that file instead.
//! Notes inputs that are compressed or encoded.

use crate::kodliwe_program::error::shown_name;
use crate::support::alloc::{AllocError, Global};
use crate::support::format;
use crate::support::string::String;
use std::io;
use std::io::{Read, Write};

/// The magic numbers and byte order marks of such inputs, and what a note says about each.
const MAGIC_NUMBERS: [(&[u8], &str); 6] = [
    (b"\x1F\x8B", "compressed (gzip); decompress it first"),
    (b"\x28\xB5/\xFD", "compressed (zstd); decompress it first"),
    (b"\xFD7zXZ\0", "compressed (xz); decompress it first"),
    (b"\x04\x22M\x18", "compressed (lz4); decompress it first"),
    (b"\xFF\xFE", "encoded (UTF-16); convert it to UTF-8 first"),
    (b"\xFE\xFF", "encoded (UTF-16); convert it to UTF-8 first"),
];

/// Returns whether a chunk begins as a file of bzip2: `BZh`, a digit, and the mark of a block.
fn is_bzip2(chunk: &[u8]) -> bool {
    match chunk.get(4..) {
        Some(rest) => chunk.starts_with(b"BZh") && rest.starts_with(b"1AY&SY"),
        None => false,
    }
}

/// Returns what a note says about an input that begins with this chunk.
fn remark_on(chunk: &[u8]) -> Option<&'static str> {
    for (mark, remark) in MAGIC_NUMBERS {
        if chunk.starts_with(mark) {
            return Some(remark);
        }
    }
    if is_bzip2(chunk) {
        return Some("compressed (bzip2); decompress it first");
    }
    None
}

/// Returns the note on an input. Fails if memory can't be allocated.
fn note_line(alloc: Global, name: &str, remark: &str) -> Result<String, AllocError> {
    let name = shown_name(alloc, name)?;
    format!(in alloc; "kodliwe: note: {name} looks {remark}\n")
}

/// A reader of an input that writes a note if the first chunk begins with one of the magic numbers.
pub struct NotingReader<'a, 'e, R, E: Write> {
    alloc: Global,
    name: &'a str,
    reader: R,
    errors: &'e mut E,
    /// Whether no chunk was read so far.
    is_first: bool,
}

impl<'a, 'e, R: Read, E: Write> NotingReader<'a, 'e, R, E> {
    /// Returns a reader of the input with this name, which writes to `errors`.
    pub fn new(alloc: Global, name: &'a str, reader: R, errors: &'e mut E) -> Self {
        NotingReader {
            alloc,
            name,
            reader,
            errors,
            is_first: true,
        }
    }

    /// Writes a note if the first chunk begins with one of the magic numbers. The note is left out
    /// if memory can't be allocated. An error of `errors` is ignored.
    fn note(&mut self, chunk: &[u8]) {
        let Some(remark) = remark_on(chunk) else {
            return;
        };
        if let Ok(line) = note_line(self.alloc, self.name, remark) {
            let _ = self.errors.write_all(line.as_bytes());
        }
    }
}

impl<R: Read, E: Write> Read for NotingReader<'_, '_, R, E> {
    /// Reads once, as the input's own reader does, and fails if that reader fails.
    fn read(&mut self, buf: &mut [u8]) -> io::Result<usize> {
        let count = self.reader.read(buf)?;
        if self.is_first {
            self.is_first = false;
            self.note(&buf[..count]);
        }
        Ok(count)
    }
}
