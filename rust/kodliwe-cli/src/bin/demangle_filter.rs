//! Demangles the Rust symbols in lines of text.
use std::process::ExitCode;

fn main() -> ExitCode {
    kodliwe_cli::run_demangle_filter()
}
