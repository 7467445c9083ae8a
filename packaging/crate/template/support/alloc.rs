//! Allocators. Rust's own is the only one.
use std::{error, fmt, io};

/// The error of an allocation.
#[derive(Clone, Copy, Debug, PartialEq, Eq)]
pub struct AllocError;

impl fmt::Display for AllocError {
    fn fmt(&self, f: &mut fmt::Formatter<'_>) -> fmt::Result {
        f.write_str("memory was refused")
    }
}

impl error::Error for AllocError {}

impl From<AllocError> for io::Error {
    fn from(_error: AllocError) -> io::Error {
        io::Error::from(io::ErrorKind::OutOfMemory)
    }
}

/// An allocator.
pub trait Allocator {}

/// Rust's global allocator.
#[derive(Clone, Copy, Debug)]
pub struct Global;

impl Allocator for Global {}
