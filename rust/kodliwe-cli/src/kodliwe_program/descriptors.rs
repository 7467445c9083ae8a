// Made from crates/kodliwe_program/src/descriptors.rt by packaging/crate/erase.py: edit that file instead.
//! Takes the descriptors of standard streams that are closed.
use crate::support::fs::{File, Files, OpenOptions};
use crate::support::os::fd::AsRawFd;

/// A file that can be opened at any time, for reading and for writing.
const NULL_DEVICE: &str = "/dev/null";

/// Opens the null device if that takes the descriptor of a standard stream, and returns it.
///
/// The device is opened so that the stream stays of no use: standard input can't be read, and
/// standard output and standard error can't be written.
fn take_closed<F: Files>(files: &F) -> Option<F::File>
where
    F::File: AsRawFd,
{
    let Ok(file) = File::open(files, NULL_DEVICE) else {
        return None;
    };
    match file.as_raw_fd() {
        0 => {
            drop(file);
            OpenOptions::new().write(true).open(files, NULL_DEVICE).ok()
        }
        1 | 2 => Some(file),
        _ => None,
    }
}

/// Takes the descriptors of the standard streams that are closed, as long as the result is kept.
/// So no file that is opened later gets one of them, and nothing is written into it as a message.
pub fn take_closed_streams<F: Files>(files: &F) -> [Option<F::File>; 3]
where
    F::File: AsRawFd,
{
    [take_closed(files), take_closed(files), take_closed(files)]
}
