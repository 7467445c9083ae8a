// Made from crates/fault_tests/src/tests/faults.rt by packaging/crate/erase.py: edit that file instead.
//! Tests of errors of readers and writers. The caller gets their kind and text, and nothing is
//! written after one.
use crate::rustc_demangle::sink::{TextSink, WriteSink};
use crate::rustc_demangle::{
    StreamFault, demangle, demangle_bytes, demangle_stream, demangle_stream_named,
};
use crate::support::alloc::{AllocError, Global};
use crate::support::format;
use crate::support::rt::HostRuntime;
use crate::support::string::String;
use crate::support::test::Fail;
use crate::support::texts::RepeatIn;
use crate::support::vec::CollectIn;
use crate::support::vec::Vec;
use crate::test_doubles::streams::{ChunkReader, RESET};
use std::io;
use std::io::{ErrorKind, Write};

const GONE: &str = "nobody reads any more";

/// Takes a given number of writes, fails one with an error of this kind and text, and counts the
/// later ones.
struct OnceRefusingWriter {
    written: Vec<u8>,
    left: usize,
    kind: ErrorKind,
    has_refused: bool,
    late: usize,
}

impl OnceRefusingWriter {
    fn new(alloc: Global, writes: usize, kind: ErrorKind) -> OnceRefusingWriter {
        OnceRefusingWriter {
            written: Vec::new(alloc),
            left: writes,
            kind,
            has_refused: false,
            late: 0,
        }
    }
}

impl Write for OnceRefusingWriter {
    fn write(&mut self, buf: &[u8]) -> io::Result<usize> {
        if self.has_refused {
            self.late = self.late.saturating_add(1);
        } else if self.left == 0 {
            self.has_refused = true;
            return Err(io::Error::new(self.kind, GONE));
        } else {
            self.left -= 1;
        }
        self.written.extend_from_slice(buf)?;
        Ok(buf.len())
    }

    fn flush(&mut self) -> io::Result<()> {
        Ok(())
    }
}

/// Returns the kind and the text of an error.
fn kind_and_text(alloc: Global, error: &io::Error) -> Result<(ErrorKind, String), AllocError> {
    Ok((error.kind(), format!(in alloc; "{error}")?))
}

#[test]
fn the_error_of_a_reader_reaches_the_caller() -> Result<(), Fail> {
    let rt = HostRuntime;
    let alloc = rt.alloc();
    let parts = [b"x _ZN3fooE\n_ZN3ba".as_slice()];
    let mut output = Vec::new(alloc);
    let mut input = ChunkReader::new(&parts, 1, ErrorKind::ConnectionReset);
    let result = demangle_stream_named(alloc, &mut input, &mut output, true);
    let Err(StreamFault::Read(error)) = result else {
        return Err("no fault of the reader".into());
    };
    let (kind, text) = kind_and_text(alloc, &error)?;
    assert_eq!(kind, ErrorKind::ConnectionReset);
    assert_eq!(text.as_str(), RESET);
    let mut input = ChunkReader::new(&parts, 1, ErrorKind::ConnectionReset);
    let result = demangle_stream(alloc, &mut input, &mut output, true);
    let (kind, text) = kind_and_text(alloc, &result.err().ok_or("no error")?)?;
    assert_eq!(kind, ErrorKind::ConnectionReset);
    assert_eq!(text.as_str(), RESET);
    assert_eq!(output.as_slice(), b"x foo\nx foo\n".as_slice());
    Ok(())
}

#[test]
fn the_errors_of_a_run_over_bytes_reach_the_caller() -> Result<(), Fail> {
    let rt = HostRuntime;
    let alloc = rt.alloc();
    let parts = [b"x _ZN3fooE\n_ZN3ba".as_slice()];
    let mut output = Vec::new(alloc);
    let mut input = ChunkReader::new(&parts, 1, ErrorKind::ConnectionReset);
    let result = demangle_bytes(alloc, &mut input, &mut output, true);
    let Err(StreamFault::Read(error)) = result else {
        return Err("no fault of the reader".into());
    };
    let (kind, text) = kind_and_text(alloc, &error)?;
    assert_eq!(kind, ErrorKind::ConnectionReset);
    assert_eq!(text.as_str(), RESET);
    // The writes are `x `, `foo` and the line feed.
    for writes in 0..3usize {
        let mut output = OnceRefusingWriter::new(alloc, writes, ErrorKind::BrokenPipe);
        let mut input = b"x _ZN3fooE\n".as_slice();
        let result = demangle_bytes(alloc, &mut input, &mut output, true);
        let Err(StreamFault::Write(error)) = result else {
            return Err("no fault of the writer".into());
        };
        let (kind, text) = kind_and_text(alloc, &error)?;
        assert_eq!(kind, ErrorKind::BrokenPipe);
        assert_eq!(text.as_str(), GONE, "at {writes}");
        assert_eq!(output.late, 0usize, "at {writes}");
    }
    Ok(())
}

#[test]
fn lack_of_memory_in_a_reader_keeps_only_its_kind() -> Result<(), Fail> {
    let rt = HostRuntime;
    let alloc = rt.alloc();
    let parts = [b"x _ZN3fooE\n".as_slice()];
    let reader = || ChunkReader::new(&parts, 1, ErrorKind::OutOfMemory);
    let mut output = Vec::new(alloc);
    let result = demangle_stream_named(alloc, &mut reader(), &mut output, true);
    assert!(matches!(&result, Err(StreamFault::Memory)));
    let result = demangle_stream(alloc, &mut reader(), &mut output, true);
    let (kind, text) = kind_and_text(alloc, &result.err().ok_or("no error")?)?;
    assert_eq!(kind, ErrorKind::OutOfMemory);
    assert!(text.as_str() != RESET);
    Ok(())
}

#[test]
fn the_error_of_a_writer_reaches_the_caller() -> Result<(), Fail> {
    let rt = HostRuntime;
    let alloc = rt.alloc();
    for wanted in [ErrorKind::BrokenPipe, ErrorKind::OutOfMemory] {
        let mut output = OnceRefusingWriter::new(alloc, 1, wanted);
        let mut input = b"x _ZN3fooE\n".as_slice();
        let result = demangle_stream_named(alloc, &mut input, &mut output, true);
        let Err(StreamFault::Write(error)) = result else {
            return Err("no fault of the writer".into());
        };
        let (kind, text) = kind_and_text(alloc, &error)?;
        assert_eq!(kind, wanted);
        assert_eq!(text.as_str(), GONE);
        let mut output = OnceRefusingWriter::new(alloc, 1, wanted);
        let mut input = b"x _ZN3fooE\n".as_slice();
        let result = demangle_stream(alloc, &mut input, &mut output, true);
        let (kind, text) = kind_and_text(alloc, &result.err().ok_or("no error")?)?;
        assert_eq!(kind, wanted);
        assert_eq!(text.as_str(), GONE);
        let mut output = OnceRefusingWriter::new(alloc, 1, wanted);
        let mut sink = WriteSink::new(&mut output);
        assert!(demangle("_ZN1a1bE").write_to(&mut sink, true).is_err());
        let (kind, text) = kind_and_text(alloc, &sink.into_fault().ok_or("no fault")?)?;
        assert_eq!(kind, wanted);
        assert_eq!(text.as_str(), GONE);
    }
    Ok(())
}

#[test]
fn both_stream_calls_return_the_same_error() -> Result<(), Fail> {
    let rt = HostRuntime;
    let alloc = rt.alloc();
    let cases: [(&[u8], ErrorKind, usize); 5] = [
        (b"x _ZN3fooE\n", ErrorKind::ConnectionReset, 100),
        (b"x _ZN3fooE\n_ZN3", ErrorKind::OutOfMemory, 100),
        (b"x _ZN3fooE\n\xFF\n", ErrorKind::Other, 100),
        (b"x _ZN3fooE\n", ErrorKind::Other, 0),
        (b"x _ZN3fooE\n", ErrorKind::Other, 2),
    ];
    for (text, kind, writes) in cases {
        let parts = [text];
        for include_hash in [true, false] {
            let reader = || ChunkReader::new(&parts, 1, kind);
            let mut named = OnceRefusingWriter::new(alloc, writes, ErrorKind::BrokenPipe);
            let fault = demangle_stream_named(alloc, &mut reader(), &mut named, include_hash);
            let fault = fault.err().ok_or("no fault")?.into_io();
            let mut output = OnceRefusingWriter::new(alloc, writes, ErrorKind::BrokenPipe);
            let error = demangle_stream(alloc, &mut reader(), &mut output, include_hash);
            let (wanted_kind, wanted_text) = kind_and_text(alloc, &fault)?;
            let (kind, message) = kind_and_text(alloc, &error.err().ok_or("no error")?)?;
            assert_eq!(kind, wanted_kind, "of {text:?}");
            assert_eq!(message.as_str(), wanted_text.as_str(), "of {text:?}");
            assert_eq!(
                output.written.as_slice(),
                named.written.as_slice(),
                "of {text:?}"
            );
        }
    }
    Ok(())
}

#[test]
fn nothing_is_written_after_the_first_error() -> Result<(), Fail> {
    let rt = HostRuntime;
    let alloc = rt.alloc();
    for writes in 0..12usize {
        let mut input = b"a _ZN1a1bE.x b\n_RCs_3foo c\nd\n".as_slice();
        let mut output = OnceRefusingWriter::new(alloc, writes, ErrorKind::BrokenPipe);
        let result = demangle_stream_named(alloc, &mut input, &mut output, true);
        assert!(matches!(&result, Err(StreamFault::Write(_))), "at {writes}");
        assert!(output.has_refused, "at {writes}");
        assert_eq!(output.late, 0, "at {writes}");
    }
    for symbol in ["_ZN1a1bE.x", "_RNvC1a1b.x", "a"] {
        let symbol = demangle(symbol);
        for writes in 0..4usize {
            let mut output = OnceRefusingWriter::new(alloc, writes, ErrorKind::BrokenPipe);
            let mut sink = WriteSink::new(&mut output);
            let result = symbol.write_to(&mut sink, true);
            assert_eq!(result.is_err(), sink.is_failed(), "at {writes}");
            assert_eq!(
                sink.into_fault().is_some(),
                output.has_refused,
                "at {writes}"
            );
            assert_eq!(output.late, 0, "at {writes}");
        }
    }
    Ok(())
}

#[test]
fn a_hundred_thousand_lines_are_copied() -> Result<(), Fail> {
    let rt = HostRuntime;
    let alloc = rt.alloc();
    let text = "x _ZN3fooE\n".repeat_in(alloc, 100_000)?;
    let wanted = "x foo\n".repeat_in(alloc, 100_000)?;
    let mut input = text.as_str().as_bytes();
    let mut output = Vec::new(alloc);
    demangle_stream(alloc, &mut input, &mut output, true)?;
    assert!(output.as_slice() == wanted.as_str().as_bytes());
    Ok(())
}

#[test]
fn a_line_comes_in_ten_thousand_parts() -> Result<(), Fail> {
    let rt = HostRuntime;
    let alloc = rt.alloc();
    let text = "x _ZN3fooE, ".repeat_in(alloc, 1_000)?;
    let wanted = "x foo, ".repeat_in(alloc, 1_000)?;
    let parts: Vec<&[u8]> = text.as_str().as_bytes().chunks(1).collect_in(alloc)?;
    let mut input = ChunkReader::new(parts.as_slice(), usize::MAX, ErrorKind::Other);
    assert!(text.as_str().len() > 10_000);
    let mut output = Vec::new(alloc);
    demangle_stream(alloc, &mut input, &mut output, true)?;
    assert!(output.as_slice() == wanted.as_str().as_bytes());
    Ok(())
}

#[test]
fn errors_have_their_kinds() -> Result<(), Fail> {
    let rt = HostRuntime;
    let alloc = rt.alloc();
    let mut input: &[u8] = b"\xFF";
    let mut output = Vec::new(alloc);
    let result = demangle_stream(alloc, &mut input, &mut output, false);
    assert_eq!(
        result.map_err(|error| error.kind()),
        Err(ErrorKind::InvalidData)
    );
    assert_eq!(StreamFault::Memory.into_io().kind(), ErrorKind::OutOfMemory);
    let mut input: &[u8] = b"_ZN1a3bcdE\n";
    let mut bytes = [0; 4];
    let mut room = bytes.as_mut_slice();
    let result = demangle_stream(alloc, &mut input, &mut room, true);
    assert_eq!(
        result.map_err(|error| error.kind()),
        Err(ErrorKind::WriteZero)
    );
    Ok(())
}
