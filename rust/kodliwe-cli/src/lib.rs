//! The programs `kodliwe` and `demangle_filter`.
//!
//! The package's two binaries call this library, which has no interface for other packages. The
//! library `kodliwe` demangles.
#![warn(missing_docs)]
#![deny(unsafe_code)]

use std::process::ExitCode;

mod demangle_filter;
mod filter_program;
#[cfg(test)]
mod filter_program_tests;
mod kodliwe;
mod kodliwe_program;
#[cfg(test)]
mod kodliwe_tests;
mod support;
#[cfg(test)]
mod test_doubles;

/// Runs the program `kodliwe`, and returns its exit status.
pub fn run_kodliwe() -> ExitCode {
    self::kodliwe::main()
}

/// Runs the program `demangle_filter`, and returns its exit status.
pub fn run_demangle_filter() -> ExitCode {
    demangle_filter::main()
}
