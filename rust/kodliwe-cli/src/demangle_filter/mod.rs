// Made from crates/demangle_filter/src/main.rt by packaging/crate/erase.py: edit that file instead.
//! Copies standard input to standard output with each Rust symbol demangled.
use crate::filter_program::filter::{OUT_OF_MEMORY, USAGE, filter_run, report};
use crate::filter_program::flushing::FlushingOutput;
use crate::support::env;
use crate::support::io::{BufReader, BufWriter};
use crate::support::rt::AllocGlobal;
use crate::support::rt::Env;
use crate::support::rt::HostRuntime;
use crate::support::string::String;
use crate::support::vec::CollectIn;
use crate::support::vec::Vec;
use std::io;
use std::io::ErrorKind;
use std::process::ExitCode;

/// Returns the arguments after the program's name.
fn arguments(rt: &(impl Env + AllocGlobal)) -> io::Result<Vec<String>> {
    let args = env::args(rt)?;
    Ok(args.skip(1).collect_in::<Vec<String>>(rt.alloc())?)
}

/// Runs the program over the standard streams, and returns its exit status.
pub fn main() -> ExitCode {
    let rt = HostRuntime;
    let alloc = rt.alloc();
    let mut errors = rt.stderr().lock();
    let args = match arguments(&rt) {
        Ok(args) => args,
        Err(error) => {
            if error.kind() == ErrorKind::OutOfMemory {
                return ExitCode::from(report(&mut errors, OUT_OF_MEMORY, 1));
            }
            return ExitCode::from(report(&mut errors, USAGE, 2));
        }
    };
    let Ok(buffer) = BufWriter::new(alloc, rt.stdout().lock()) else {
        return ExitCode::from(report(&mut errors, OUT_OF_MEMORY, 1));
    };
    let output = FlushingOutput::new(buffer);
    let Ok(mut input) = BufReader::new(alloc, output.reader(rt.stdin().lock())) else {
        return ExitCode::from(report(&mut errors, OUT_OF_MEMORY, 1));
    };
    let status = filter_run(
        alloc,
        args.as_slice(),
        &mut input,
        &mut output.writer(),
        &mut errors,
    );
    ExitCode::from(status)
}
