//! The parts of the kit that the programs use, over Rust's own library.
pub mod env;
pub mod fs;
pub mod io;
mod macros;
pub mod os;
#[cfg(test)]
pub mod process;
pub mod rt;
mod standard;
pub mod string;
#[cfg(test)]
pub mod test;
#[cfg(test)]
mod vectors;

pub use kodliwe::internal::support::{alloc, vec};
pub(crate) use macros::format;
#[cfg(test)]
pub(crate) use vectors::vec_in;
