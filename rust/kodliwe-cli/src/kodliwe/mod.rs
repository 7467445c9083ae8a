// Made from crates/kodliwe/src/main.rt by packaging/crate/erase.py: edit that file instead.
//! Copies texts with each Rust symbol demangled.
use crate::kodliwe_program::descriptors::take_closed_streams;
use crate::kodliwe_program::program::{Host, arguments_error, start};
use crate::support::env;
use crate::support::rt::AllocGlobal;
use crate::support::rt::Env;
use crate::support::rt::HostRuntime;
use crate::support::string::String;
use crate::support::vec::CollectIn;
use crate::support::vec::Vec;
use std::io;
use std::io::Write;
use std::process::ExitCode;

/// Returns the arguments after the program's name. Fails if one is not UTF-8 or memory can't be
/// allocated.
fn read_arguments(rt: &(impl Env + AllocGlobal)) -> io::Result<Vec<String>> {
    let arguments = env::args(rt)?;
    Ok(arguments.skip(1).collect_in::<Vec<String>>(rt.alloc())?)
}

pub fn main() -> ExitCode {
    let rt = HostRuntime;
    let _taken = take_closed_streams(&rt);
    let alloc = rt.alloc();
    let mut errors = rt.stderr().lock();
    let arguments = match read_arguments(&rt) {
        Ok(arguments) => arguments,
        Err(error) => {
            let (line, status) = arguments_error(&error);
            let _ = errors.write_all(line.as_bytes());
            return ExitCode::from(status);
        }
    };
    let host = Host {
        alloc,
        files: &rt,
        stdin: rt.stdin(),
        stdout: rt.stdout().lock(),
        errors,
    };
    ExitCode::from(start(host, arguments.as_slice()))
}
