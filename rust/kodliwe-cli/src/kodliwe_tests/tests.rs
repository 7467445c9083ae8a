// Made from crates/kodliwe_tests/src/tests.rt by packaging/crate/erase.py: edit that file instead.
//! Tests the program's work with readers and writers that fail, and the parsing of arguments. The
//! filter itself is tested in the library; here its output is the expected value.
use crate::kodliwe_program::arguments::{Command, Target, parse_arguments};
use crate::kodliwe_program::filtering::{FilterOutcome, Input, Part, Settings, filter_all};
use crate::kodliwe_program::program::{Host, start};
use crate::support::alloc::{AllocError, Global};
use crate::support::format;
use crate::support::fs::Files;
use crate::support::io::Stdin;
use crate::support::os::fd::AsFd;
use crate::support::process::Abort;
use crate::support::rt::HostRuntime;
use crate::support::string::String;
use crate::support::test::Fail;
use crate::support::vec::Vec;
use core::cell::Cell;
use kodliwe::internal::rustc_demangle::{Format, demangle_stream_named};
use std::io::{ErrorKind, Read, Write};
use streams::{CallsWriter, ChunkReader, WatchedWriter, WatchingReader};

mod calls;
mod notes;
mod streams;

/// The text of a log: both schemes, partial symbols, a byte of Latin-1, NUL, and long runs.
const LOG: &[u8] = b"a _ZN3foo17h05af221e174051e9E\r\n\n_ _Z _R _ZN __R \
    _RNvC5crate4main.llvm.0 _RNvC1a1b \xE9t\xE9 \0_ZN3fooE\0 _ZN1a1bE._ZN1cE _Z_ZN1a1bE$x\n_ZN3barE";

/// The log without hashes.
const FILTERED_LOG: &[u8] = b"a foo\r\n\n_ _Z _R _ZN __R \
    crate::main a::b \xE9t\xE9 \0foo\0 a::b._ZN1cE _Z_ZN1a1bE$x\nbar";

/// Returns the output of the line filter for a text, which has to be UTF-8, with or without hashes.
fn by_lines(alloc: Global, text: &[u8], include_hash: bool) -> Result<Vec<u8>, AllocError> {
    let mut wanted = Vec::new(alloc);
    let mut input = text;
    let copied = demangle_stream_named(alloc, &mut input, &mut wanted, include_hash);
    assert!(copied.is_ok(), "of {text:?}");
    Ok(wanted)
}

/// Filters one reader into `output`. Returns how that ended, and what was written as errors.
fn run_one<R: Read, W: Write>(
    alloc: Global,
    reader: R,
    output: &mut W,
    include_hash: bool,
) -> Result<(FilterOutcome, Vec<u8>), AllocError> {
    let mut inputs = Vec::new(alloc);
    inputs.push(Part::Text(Input {
        name: "log.txt",
        reader,
    }))?;
    let mut errors = Vec::new(alloc);
    let settings = Settings {
        alloc,
        format: Format::unfolded(include_hash, 1_000_000),
    };
    let ended = filter_all(settings, inputs, output, &mut errors);
    Ok((ended, errors))
}

/// Asserts the output for chunks of this many bytes.
fn assert_writes(
    alloc: Global,
    text: &[u8],
    most: usize,
    wanted: &[u8],
    include_hash: bool,
) -> Result<(), AllocError> {
    let mut output = Vec::new(alloc);
    let reader = ChunkReader::new(text, most);
    let (ended, errors) = run_one(alloc, reader, &mut output, include_hash)?;
    assert_eq!(ended, FilterOutcome::Complete, "of {text:?} by {most}");
    assert_eq!(output.as_slice(), wanted, "of {text:?} by {most}");
    assert!(errors.is_empty(), "of {text:?} by {most}");
    Ok(())
}

#[test]
fn a_log_of_any_bytes_is_filtered_in_chunks_of_any_size() -> Result<(), Fail> {
    let rt = HostRuntime;
    let alloc = rt.alloc();
    for most in 1..LOG.len() {
        assert_writes(alloc, LOG, most, FILTERED_LOG, false)?;
    }
    Ok(())
}

#[test]
fn each_prefix_is_filtered_as_by_lines() -> Result<(), Fail> {
    let rt = HostRuntime;
    let alloc = rt.alloc();
    let text: &[u8] = b"x _ZN3foo17h05af221e174051e9E\n_RNvC5crate4main _RNvC1a1b _ZN1a1bE__RC1a";
    for len in 0..=text.len() {
        let prefix = &text[..len];
        for include_hash in [false, true] {
            let wanted = by_lines(alloc, prefix, include_hash)?;
            for most in 1..4 {
                assert_writes(alloc, prefix, most, wanted.as_slice(), include_hash)?;
            }
        }
    }
    Ok(())
}

#[test]
fn inputs_are_filtered_each_by_itself() -> Result<(), Fail> {
    let rt = HostRuntime;
    let alloc = rt.alloc();
    let mut inputs = Vec::new(alloc);
    let texts: [&[u8]; 4] = [b"x _ZN3fo", b"oE\n_ZN3fooE", b"", b"_ZN3barE\n"];
    for text in texts {
        inputs.push(Part::Text(Input {
            name: "log.txt",
            reader: ChunkReader::new(text, 100),
        }))?;
    }
    let mut output = Vec::new(alloc);
    let mut errors = Vec::new(alloc);
    let settings = Settings {
        alloc,
        format: Format::unfolded(false, 1_000_000),
    };
    let ended = filter_all(settings, inputs, &mut output, &mut errors);
    assert_eq!(ended, FilterOutcome::Complete);
    assert_eq!(output.as_slice(), b"x _ZN3fooE\nfoobar\n".as_slice());
    Ok(())
}

#[test]
fn a_closed_pipe_ends_filtering_without_a_message() -> Result<(), Fail> {
    let rt = HostRuntime;
    let alloc = rt.alloc();
    for calls in 0..8 {
        let mut output = CallsWriter::new(alloc, calls, ErrorKind::BrokenPipe, 100);
        let (ended, errors) = run_one(alloc, ChunkReader::new(LOG, 9), &mut output, false)?;
        assert_eq!(ended, FilterOutcome::Closed, "at {calls}");
        assert_eq!(ended.status(), 0);
        assert!(errors.is_empty());
    }
    Ok(())
}

#[test]
fn finished_output_is_flushed_before_more_is_read() -> Result<(), Fail> {
    let rt = HostRuntime;
    let alloc = rt.alloc();
    let is_unflushed = Cell::new(false);
    let text: &[u8] = b"_ZN3fooE\nx _ZN3barE\ny _ZN1aE";
    let reader = WatchingReader::new(text, &is_unflushed);
    let mut output = WatchedWriter::new(Vec::new(alloc), &is_unflushed);
    let (ended, _) = run_one(alloc, reader, &mut output, false)?;
    assert_eq!(ended, FilterOutcome::Complete);
    assert_eq!(output.held(), b"foo\nx bar\ny a".as_slice());
    assert!(!is_unflushed.get());
    Ok(())
}

/// Returns the arguments as the program gets them.
fn owned_arguments(alloc: Global, arguments: &[&str]) -> Result<Vec<String>, AllocError> {
    let mut owned = Vec::new(alloc);
    for argument in arguments.iter() {
        owned.push(String::from_str(alloc, argument)?)?;
    }
    Ok(owned)
}

/// Runs the program on these arguments, and asserts what it writes.
fn assert_program<R: Abort + Files>(
    rt: &R,
    alloc: Global,
    stdin: Stdin,
    arguments: &[&str],
    status: u8,
    wanted: &[u8],
    line: &[u8],
) -> Result<(), Fail>
where
    R::File: AsFd,
{
    let owned = owned_arguments(alloc, arguments)?;
    let mut output = Vec::new(alloc);
    let mut errors = Vec::new(alloc);
    let host = Host {
        alloc,
        files: rt,
        stdin,
        stdout: &mut output,
        errors: &mut errors,
    };
    let ended = start(host, owned.as_slice());
    assert_eq!(ended, status, "with {arguments:?}");
    assert_eq!(output.as_slice(), wanted, "with {arguments:?}");
    assert_eq!(errors.as_slice(), line, "with {arguments:?}");
    Ok(())
}

const FOO: &str = "_ZN3foo17h05af221e174051e9E";

#[test]
fn symbols_are_arguments_in_any_place() -> Result<(), Fail> {
    let rt = HostRuntime;
    let kept = b"foo::h05af221e174051e9\nb\n";
    assert_program(
        &rt,
        rt.alloc(),
        rt.stdin(),
        &[FOO, "x _ZN1aE"],
        0,
        b"foo\nx a\n",
        b"",
    )?;
    assert_program(
        &rt,
        rt.alloc(),
        rt.stdin(),
        &["--hash", FOO, "_ZN1bE"],
        0,
        kept,
        b"",
    )?;
    assert_program(
        &rt,
        rt.alloc(),
        rt.stdin(),
        &[FOO, "_ZN1bE", "--hash"],
        0,
        kept,
        b"",
    )?;
    assert_program(
        &rt,
        rt.alloc(),
        rt.stdin(),
        &["_ZN1aE", "--", "--hash", "-_ZN1bE", "--", "-"],
        0,
        b"a\n--hash\n-b\n--\n-\n",
        b"",
    )?;
    assert_program(
        &rt,
        rt.alloc(),
        rt.stdin(),
        &["", "_ZN1aE\n_ZN1bE"],
        0,
        b"\na\nb\n",
        b"",
    )
}

#[test]
fn unknown_options_are_errors() -> Result<(), Fail> {
    let rt = HostRuntime;
    for &argument in &[
        "--frob", "-x", "--hashes", "--hash=1", "--help=1", "-hV", "--inputs", "-Vx",
    ] {
        let line = format!(in rt.alloc();
            "kodliwe: unknown option '{argument}'; try 'kodliwe --help'\n"
        )?;
        assert_program(
            &rt,
            rt.alloc(),
            rt.stdin(),
            &[FOO, argument, "--help"],
            2,
            b"",
            line.as_bytes(),
        )?;
    }
    for argument in ["-i", "--input", "-o", "--output"] {
        let line = format!(in rt.alloc();
            "kodliwe: option '{argument}' needs a FILE; try 'kodliwe --help'\n"
        )?;
        assert_program(
            &rt,
            rt.alloc(),
            rt.stdin(),
            &[FOO, argument],
            2,
            b"",
            line.as_bytes(),
        )?;
    }
    Ok(())
}

#[test]
fn each_path_is_cut_at_the_limit() -> Result<(), Fail> {
    let rt = HostRuntime;
    let symbol = "_ZN6x$u5d$31__$XX$barbar$u7b$$u00000000041$17hc6d3e347656472b8E";
    let cases: [&[&str]; 4] = [
        &["-l", "1", symbol],
        &["-l1", symbol],
        &["--limit", "1", symbol],
        &["--limit=1", symbol],
    ];
    for arguments in cases {
        let cut: &[u8] = b"x{size limit reached}\n";
        assert_program(&rt, rt.alloc(), rt.stdin(), arguments, 0, cut, b"")?;
    }
    let line: &[u8] = b"kodliwe: option '-l' needs a number of BYTES; try 'kodliwe --help'\n";
    assert_program(&rt, rt.alloc(), rt.stdin(), &["-l"], 2, b"", line)
}

#[test]
fn arguments_are_folded() -> Result<(), Fail> {
    let rt = HostRuntime;
    let text = "_RNvMC3fooINtB2_3BarlE3baz x _RNvMC3fooINtB2_3BarlE3baz";
    let folded: &[u8] = b"<foo::Bar<_>>::baz x <foo::Bar<_>>::baz\n";
    let cases: [&[&str]; 4] = [
        &["-f", text],
        &["--fold", text],
        &[text, "-f"],
        &["--hash", "-f", text],
    ];
    for arguments in cases {
        assert_program(&rt, rt.alloc(), rt.stdin(), arguments, 0, folded, b"")?;
    }
    let whole: &[u8] = b"-f\n<foo::Bar<i32>>::baz x <foo::Bar<i32>>::baz\n";
    assert_program(
        &rt,
        rt.alloc(),
        rt.stdin(),
        &["--", "-f", text],
        0,
        whole,
        b"",
    )
}

#[test]
fn a_value_that_is_no_number_of_bytes_is_named() -> Result<(), Fail> {
    let rt = HostRuntime;
    let cases: [(&[&str], &[u8]); 5] = [
        (
            &["-l", "1K"],
            b"kodliwe: option '-l': '1K' is not a number of bytes below 2^64\n",
        ),
        (
            &["-l18446744073709551616"],
            b"kodliwe: option '-l': '18446744073709551616' is not a number of bytes below 2^64\n",
        ),
        (
            &["--limit=-1"],
            b"kodliwe: option '--limit': '-1' is not a number of bytes below 2^64\n",
        ),
        (
            &["--limit=", FOO],
            b"kodliwe: option '--limit': '' is not a number of bytes below 2^64\n",
        ),
        (
            &["--limit", "1\n2", FOO],
            b"kodliwe: option '--limit': '1\\n2' is not a number of bytes below 2^64\n",
        ),
    ];
    for (arguments, line) in cases {
        assert_program(&rt, rt.alloc(), rt.stdin(), arguments, 2, b"", line)?;
    }
    Ok(())
}

#[test]
fn a_second_output_is_an_error() -> Result<(), Fail> {
    let rt = HostRuntime;
    let cases: [(&[&str], &[u8]); 3] = [
        (
            &["-o", "a", "-o", "b", FOO],
            b"kodliwe: option '-o' may be given once; try 'kodliwe --help'\n",
        ),
        (
            &["-o-", FOO, "-ob"],
            b"kodliwe: option '-o' may be given once; try 'kodliwe --help'\n",
        ),
        (
            &["-oa", "--output=-", FOO],
            b"kodliwe: option '--output' may be given once; try 'kodliwe --help'\n",
        ),
    ];
    for (arguments, line) in cases {
        assert_program(&rt, rt.alloc(), rt.stdin(), arguments, 2, b"", line)?;
    }
    Ok(())
}

#[test]
fn a_dash_as_the_output_is_standard_output() -> Result<(), Fail> {
    let rt = HostRuntime;
    let cases: [&[&str]; 3] = [&["-o", "-", FOO], &["-o-", FOO], &[FOO, "--output=-"]];
    for arguments in cases {
        assert_program(&rt, rt.alloc(), rt.stdin(), arguments, 0, b"foo\n", b"")?;
    }
    Ok(())
}

#[test]
fn unprintable_names_are_quoted() -> Result<(), Fail> {
    let rt = HostRuntime;
    let cases: [(&[&str], &[u8]); 3] = [
        (&["-i", ""], b"kodliwe: '': No such file or directory\n"),
        (
            &["-i", "no\x1b[31m\nfile"],
            b"kodliwe: 'no\\u{1b}[31m\\nfile': No such file or directory\n",
        ),
        (
            &["-i", "no \"caf\u{e9}\""],
            "kodliwe: no \"caf\u{e9}\": No such file or directory\n".as_bytes(),
        ),
    ];
    for (arguments, line) in cases {
        assert_program(&rt, rt.alloc(), rt.stdin(), arguments, 1, b"", line)?;
    }
    Ok(())
}

/// Asserts that these arguments request this output, with the hash kept and this limit.
fn assert_request(
    alloc: Global,
    arguments: &[&str],
    output: Option<Target<'_>>,
    limit: Option<usize>,
) -> Result<(), Fail> {
    let owned = owned_arguments(alloc, arguments)?;
    match parse_arguments(alloc, owned.as_slice()) {
        Ok(Command::Filter(request)) => {
            assert_eq!(request.output, output, "with {arguments:?}");
            assert_eq!(request.limit, limit, "with {arguments:?}");
            assert!(request.include_hash, "with {arguments:?}");
        }
        _ => panic!("with {arguments:?}"),
    }
    Ok(())
}

/// Arguments, and the status, the output and the message that they lead to.
type Case<'a> = (&'a [&'a str], u8, &'a [u8], &'a [u8]);

#[test]
fn the_argument_after_an_option_is_its_value() -> Result<(), Fail> {
    let rt = HostRuntime;
    let alloc = rt.alloc();
    let outputs: [(&[&str], &str); 4] = [
        (&["-o", "-h", "--hash"], "-h"),
        (&["--output", "--", "--hash"], "--"),
        (&["-o", "-o", "--hash"], "-o"),
        (&["--hash", "-o-V"], "-V"),
    ];
    for (arguments, path) in outputs {
        assert_request(alloc, arguments, Some(Target::File(path)), None)?;
    }
    assert_request(
        alloc,
        &["--output==x", "--limit=10", "--hash"],
        Some(Target::File("=x")),
        Some(10),
    )?;
    assert_request(
        alloc,
        &["-l", "+7", "--hash", "--", "-o", "-l"],
        None,
        Some(7),
    )?;
    let cases: [Case<'_>; 5] = [
        (
            &["-i", "--", "_ZN1aE"],
            1,
            b"",
            b"kodliwe: --: No such file or directory\n",
        ),
        (
            &["_ZN1aE", "--input", "-h"],
            1,
            b"a\n",
            b"kodliwe: -h: No such file or directory\n",
        ),
        (
            &["-l", "--", FOO],
            2,
            b"",
            b"kodliwe: option '-l': '--' is not a number of bytes below 2^64\n",
        ),
        (
            &[FOO, "--limit"],
            2,
            b"",
            b"kodliwe: option '--limit' needs a number of BYTES; try 'kodliwe --help'\n",
        ),
        (
            &["--limit=5", "--", "-_ZN3foo3barE", "-l"],
            0,
            b"-foo::{size limit reached}\n-l\n",
            b"",
        ),
    ];
    for (arguments, status, wanted, line) in cases {
        assert_program(&rt, alloc, rt.stdin(), arguments, status, wanted, line)?;
    }
    Ok(())
}

#[test]
fn files_that_are_not_there_are_named() -> Result<(), Fail> {
    let rt = HostRuntime;
    let line: &[u8] = b"kodliwe: none/log.txt: No such file or directory\n";
    let cases: [&[&str]; 4] = [
        &["_ZN1aE", "-i", "none/log.txt", "_ZN1bE"],
        &["_ZN1aE", "-inone/log.txt"],
        &["_ZN1aE", "--input", "none/log.txt"],
        &["_ZN1aE", "--input=none/log.txt"],
    ];
    for arguments in cases {
        assert_program(&rt, rt.alloc(), rt.stdin(), arguments, 1, b"a\n", line)?;
    }
    let cases: [&[&str]; 3] = [
        &["-o", "none/log.txt", "_ZN1aE"],
        &["_ZN1aE", "-onone/log.txt"],
        &["--output=none/log.txt", "_ZN1aE"],
    ];
    for arguments in cases {
        assert_program(
            &rt,
            rt.alloc(),
            rt.stdin(),
            arguments,
            1,
            b"",
            b"kodliwe: none: No such file or directory\n",
        )?;
    }
    Ok(())
}

#[test]
fn the_help_fits_a_terminal() -> Result<(), Fail> {
    let rt = HostRuntime;
    let text = crate::kodliwe_program::help::HELP;
    assert_program(
        &rt,
        rt.alloc(),
        rt.stdin(),
        &["-h"],
        0,
        text.as_bytes(),
        b"",
    )?;
    assert_program(
        &rt,
        rt.alloc(),
        rt.stdin(),
        &["_ZN1aE", "--help", "--frob"],
        0,
        text.as_bytes(),
        b"",
    )?;
    assert_program(
        &rt,
        rt.alloc(),
        rt.stdin(),
        &["-V"],
        0,
        crate::kodliwe_program::version::VERSION.as_bytes(),
        b"",
    )?;
    assert_program(
        &rt,
        rt.alloc(),
        rt.stdin(),
        &["--version", "-h"],
        0,
        crate::kodliwe_program::version::VERSION.as_bytes(),
        b"",
    )?;
    for (number, line) in text.lines().enumerate() {
        assert!(line.len() <= 80, "{line}");
        assert!(number < 24, "{line}");
    }
    Ok(())
}

#[test]
fn the_manual_and_the_completions_are_printed() -> Result<(), Fail> {
    let rt = HostRuntime;
    use crate::kodliwe_program::embedded::{BASH, FISH, MANUAL, ZSH};
    let cases: [(&[&str], &str); 7] = [
        (&["--man"], MANUAL),
        (&["_ZN1aE", "--man", "--frob"], MANUAL),
        (&["--completions", "bash"], BASH),
        (&["--completions=zsh", "--completions=tcsh"], ZSH),
        (&["--completions", "fish", "--frob"], FISH),
        (&["--man", "--completions"], MANUAL),
        (&["--completions", "fish", "-h"], FISH),
    ];
    for (arguments, text) in cases {
        assert_program(
            &rt,
            rt.alloc(),
            rt.stdin(),
            arguments,
            0,
            text.as_bytes(),
            b"",
        )?;
    }
    let cases: [(&[&str], &[u8]); 5] = [
        (
            &["--completions"],
            b"kodliwe: option '--completions' needs a SHELL; try 'kodliwe --help'\n",
        ),
        (
            &["--completions", "tcsh"],
            b"kodliwe: option '--completions': 'tcsh' is not bash, zsh or fish\n",
        ),
        (
            &["--completions="],
            b"kodliwe: option '--completions': '' is not bash, zsh or fish\n",
        ),
        (
            &["--man=x"],
            b"kodliwe: unknown option '--man=x'; try 'kodliwe --help'\n",
        ),
        (&["--", "--man", "--frob", "-o"], b""),
    ];
    for (arguments, line) in cases {
        let (status, wanted): (u8, &[u8]) = if line.is_empty() {
            (0, b"--man\n--frob\n-o\n")
        } else {
            (2, b"")
        };
        assert_program(&rt, rt.alloc(), rt.stdin(), arguments, status, wanted, line)?;
    }
    Ok(())
}

#[test]
fn ten_thousand_symbols_are_arguments() -> Result<(), Fail> {
    let rt = HostRuntime;
    let alloc = rt.alloc();
    let mut arguments = Vec::new(alloc);
    let mut wanted = Vec::new(alloc);
    for _ in 0..10_000 {
        arguments.push(FOO)?;
        wanted.extend_from_slice(b"foo\n")?;
    }
    assert_program(
        &rt,
        rt.alloc(),
        rt.stdin(),
        arguments.as_slice(),
        0,
        wanted.as_slice(),
        b"",
    )
}
