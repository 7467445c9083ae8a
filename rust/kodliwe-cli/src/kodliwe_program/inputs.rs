// Made from crates/kodliwe_program/src/inputs.rt by packaging/crate/erase.py: edit that file instead.
//! The program's inputs: files and standard input.

use crate::support::fs::{File, Files};
use crate::support::io::Stdin;
use std::io;
use std::io::Read;

/// A file that is opened when it is first read.
pub struct LazyFile<'a, F: Files> {
    files: &'a F,
    path: &'a str,
    file: Option<F::File>,
}

impl<F: Files> Read for LazyFile<'_, F> {
    fn read(&mut self, buf: &mut [u8]) -> io::Result<usize> {
        if self.file.is_none() {
            self.file = Some(File::open(self.files, self.path)?);
        }
        match &mut self.file {
            Some(file) => file.read(buf),
            None => Ok(0),
        }
    }
}

/// Standard input or a file, as a reader.
pub enum SourceReader<'a, F: Files> {
    Stdin(Stdin),
    File(LazyFile<'a, F>),
}

impl<'a, F: Files> SourceReader<'a, F> {
    /// Returns a reader of the file at a path. It is not opened yet.
    pub fn of_file(files: &'a F, path: &'a str) -> SourceReader<'a, F> {
        SourceReader::File(LazyFile {
            files,
            path,
            file: None,
        })
    }
}

impl<F: Files> Read for SourceReader<'_, F> {
    fn read(&mut self, buf: &mut [u8]) -> io::Result<usize> {
        match self {
            SourceReader::Stdin(stdin) => stdin.read(buf),
            SourceReader::File(file) => file.read(buf),
        }
    }
}

/// The name of standard input in an error message.
pub const STDIN_NAME: &str = "standard input";

/// A reader that adds a line feed to a text whose last line has none, if that is wanted.
pub struct LineReader<R: Read> {
    reader: R,
    is_wanted: bool,
    /// Whether a line feed is wanted after the bytes that were read so far.
    is_open: bool,
}

impl<R: Read> LineReader<R> {
    /// Returns a reader of the same text, which adds a missing line feed if `is_wanted`.
    pub fn new(reader: R, is_wanted: bool) -> LineReader<R> {
        LineReader {
            reader,
            is_wanted,
            is_open: false,
        }
    }

    /// Returns whether a line feed is wanted after these bytes, which were read last.
    fn is_open_after(&self, bytes: &[u8]) -> bool {
        match bytes.split_last() {
            Some((last, _)) => self.is_wanted && *last != b'\n',
            None => self.is_open,
        }
    }
}

impl<R: Read> Read for LineReader<R> {
    /// Reads once, as the inner reader does. At the end of the text, reads the line feed that is
    /// missing. Fails if the inner reader fails.
    fn read(&mut self, buf: &mut [u8]) -> io::Result<usize> {
        let count = self.reader.read(buf)?;
        if count > 0 {
            self.is_open = self.is_open_after(&buf[..count]);
            return Ok(count);
        }
        if !self.is_open || buf.is_empty() {
            return Ok(0);
        }
        self.is_open = false;
        buf[0] = b'\n';
        Ok(1)
    }
}
