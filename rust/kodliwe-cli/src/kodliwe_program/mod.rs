// Made from crates/kodliwe_program/src/lib.rt by packaging/crate/erase.py: edit that file instead.
//! What the program `kodliwe` does, over any files and streams.
pub mod about;
pub mod arguments;
pub mod coalescing;
pub mod descriptors;
pub mod embedded;
pub mod error;
pub mod filtering;
pub mod help;
mod inputs;
mod noting;
pub mod program;
mod replacement;
mod same_file;
pub mod version;
