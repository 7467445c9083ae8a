// Made from crates/rustc_demangle/src/stream/fault.rt by packaging/crate/erase.py: edit that file instead.
//! The errors of the calls over a reader.

use std::io;

/// Why the stream stopped.
pub enum StreamFault {
    /// The reader returned this error. Or there were more lines, or more parts of one line, than
    /// can be counted.
    Read(io::Error),
    /// A line is not UTF-8.
    NotUtf8,
    /// The writer returned this error.
    Write(io::Error),
    /// Memory for the line can't be allocated, or the reader reported that of itself.
    Memory,
}

impl StreamFault {
    /// Converts the error to an `io::Error`: the unchanged error of the reader or the writer, and
    /// otherwise a new one of its kind.
    pub fn into_io(self) -> io::Error {
        match self {
            StreamFault::Read(error) => error,
            StreamFault::Write(error) => error,
            StreamFault::NotUtf8 => {
                io::Error::new(io::ErrorKind::InvalidData, "the stream is not UTF-8")
            }
            StreamFault::Memory => io::Error::new(io::ErrorKind::OutOfMemory, "out of memory"),
        }
    }
}

/// Returns the reason for an error of the reader.
pub(super) fn read_fault(error: io::Error) -> StreamFault {
    if error.kind() == io::ErrorKind::OutOfMemory {
        StreamFault::Memory
    } else {
        StreamFault::Read(error)
    }
}
