//! Demangles the Rust symbols in any text.
use std::process::ExitCode;

fn main() -> ExitCode {
    kodliwe_cli::run_kodliwe()
}
