// Made from crates/kodliwe_tests/src/tests/calls.rt by packaging/crate/erase.py: edit that file instead.
//! Tests inputs and outputs that fail, once for each of their calls.
use super::streams::{CallsWriter, ChunkReader, StutteringWriter};
use super::{FILTERED_LOG, LOG, run_one};
use crate::kodliwe_program::coalescing::CoalescingOutput;
use crate::kodliwe_program::error::report_call;
use crate::kodliwe_program::filtering::{BUFFER, FilterOutcome};
use crate::support::alloc::{AllocError, Global};
use crate::support::io::BufWriter;
use crate::support::rt::HostRuntime;
use crate::support::vec::Vec;
use crate::support::vec_in as vec;
use kodliwe::internal::piece_buffer::CAPACITY;
use std::io;
use std::io::ErrorKind;

use crate::support::test::Fail;

const TEXT: &[u8] = b"__ZN3fooE x\n_RNvC1a1b \xFF _ZN3foo4headE\n_R_ZN3fooE \
    _ZN3fooE.llvm.9D1C9369@@16 _ZN3foo17h05af221e174051e9E";

/// The text without hashes.
const FILTERED: &[u8] = b"foo x\na::b \xFF foo\n_R_ZN3fooE foo@@16 foo";

/// The capacities, in bytes, of the buffer below an output.
const CAPACITIES: [usize; 4] = [0, 1, 5, BUFFER];

/// The filtered text that is certain after this many bytes are read: all except the run that may
/// continue.
const KNOWN_AT: [(usize, &[u8]); 13] = [
    (10, b"foo "),
    (11, b"x"),
    (12, b"\n"),
    (22, b"a::b "),
    (23, b"\xFF"),
    (24, b" "),
    (38, b"foo\n"),
    (49, b"_R_ZN3fooE "),
    (72, b"foo@"),
    (73, b"@"),
    (74, b"1"),
    (75, b"6"),
    (76, b" "),
];

/// Returns the filtered text that is certain after this many bytes are read.
fn known_of(alloc: Global, count: usize) -> Result<Vec<u8>, AllocError> {
    let mut known = Vec::new(alloc);
    for (least, piece) in KNOWN_AT {
        if least <= count {
            known.extend_from_slice(piece)?;
        }
    }
    Ok(known)
}

#[test]
fn a_reader_that_fails_at_any_read_is_reported_by_name() -> Result<(), Fail> {
    let rt = HostRuntime;
    let alloc = rt.alloc();
    let faults: [(ErrorKind, &[u8]); 4] = [
        (
            ErrorKind::IsADirectory,
            b"kodliwe: log.txt: reset by the other side\n",
        ),
        (
            ErrorKind::WouldBlock,
            b"kodliwe: log.txt: reset by the other side\n",
        ),
        (
            ErrorKind::TimedOut,
            b"kodliwe: log.txt: reset by the other side\n",
        ),
        (ErrorKind::OutOfMemory, b"kodliwe: out of memory\n"),
    ];
    for (kind, line) in faults {
        for most in [1, 6, 50] {
            // The last one of these reads would report the end.
            for reads in 0..=TEXT.len().div_ceil(most) {
                let reader = ChunkReader::new(TEXT, most).failing(reads, kind);
                let mut output = Vec::new(alloc);
                let (ended, errors) = run_one(alloc, reader, &mut output, false)?;
                let wanted = known_of(alloc, reads.saturating_mul(most))?;
                assert_eq!(ended, FilterOutcome::ReadFailed, "at {reads} by {most}");
                assert_eq!(ended.status(), 1);
                assert_eq!(errors.as_slice(), line, "at {reads} by {most}");
                assert_eq!(output.as_slice(), wanted.as_slice(), "at {reads} by {most}");
            }
        }
    }
    Ok(())
}

#[test]
fn interrupted_calls_are_retried() -> Result<(), Fail> {
    let rt = HostRuntime;
    let alloc = rt.alloc();
    let reader = ChunkReader::new(LOG, 5).interrupted();
    let mut output = CallsWriter::new(alloc, usize::MAX, ErrorKind::Other, 3).interrupted();
    let (ended, errors) = run_one(alloc, reader, &mut output, false)?;
    assert_eq!(ended, FilterOutcome::Complete);
    assert!(errors.is_empty());
    assert_eq!(output.held(), FILTERED_LOG);
    Ok(())
}

#[test]
fn calls_are_retried_after_ten_interruptions() -> Result<(), Fail> {
    let rt = HostRuntime;
    let alloc = rt.alloc();
    let mut writer = StutteringWriter::new(alloc, 10);
    let (ended, errors) = run_one(alloc, ChunkReader::new(LOG, 5), &mut writer, false)?;
    assert_eq!(ended, FilterOutcome::Complete);
    assert!(errors.is_empty());
    assert_eq!(writer.held(), FILTERED_LOG);
    for case in cases(alloc)?.iter() {
        for capacity in CAPACITIES {
            let mut writer = StutteringWriter::new(alloc, 10);
            let mut output =
                CoalescingOutput::new(BufWriter::with_capacity(alloc, capacity, &mut writer)?);
            let reader = ChunkReader::new(case.text.as_slice(), case.read);
            let (ended, errors) = run_one(alloc, reader, &mut output, false)?;
            drop(output);
            assert_eq!(ended, FilterOutcome::Complete, "over {capacity}");
            assert!(errors.is_empty());
            let is_wanted = writer.held() == case.wanted.as_slice();
            assert!(is_wanted, "over {capacity}");
        }
    }
    Ok(())
}

#[test]
fn a_reason_keeps_its_own_brackets() {
    let rt = HostRuntime;
    let alloc = rt.alloc();
    let mut errors = Vec::new(alloc);
    let error = io::Error::other("late (again)");
    report_call(alloc, &mut errors, "log.txt", &error);
    let line: &[u8] = b"kodliwe: log.txt: late (again)\n";
    assert_eq!(errors.as_slice(), line);
}

#[test]
fn a_writer_that_fails_at_any_call_is_reported() -> Result<(), Fail> {
    let rt = HostRuntime;
    let alloc = rt.alloc();
    let text: &[u8] = b"x _ZN1a1bE y\n_ZN3fooE\n";
    let wanted: &[u8] = b"x a::b y\nfoo\n";
    // Two bytes a write, and a flush before each read and at the end.
    for calls in 0..100 {
        let mut output = CallsWriter::new(alloc, calls, ErrorKind::StorageFull, 2);
        let (ended, errors) = run_one(alloc, ChunkReader::new(text, 4), &mut output, false)?;
        assert!(wanted.starts_with(output.held()), "at {calls}");
        if ended == FilterOutcome::Complete {
            assert_eq!(output.held(), wanted);
            assert!(calls > 13, "{calls}");
            return Ok(());
        }
        assert_eq!(ended, FilterOutcome::WriteFailed, "at {calls}");
        assert_eq!(ended.status(), 1);
        assert_eq!(
            errors.as_slice(),
            b"kodliwe: write failed: no space\n".as_slice()
        );
    }
    panic!("it was never complete")
}

/// A text, its filtered form without hashes, and the number of bytes of a read.
struct Case {
    text: Vec<u8>,
    wanted: Vec<u8>,
    read: usize,
}

/// Returns the text, and one with more symbols and with a longer piece than an output holds.
fn cases(alloc: Global) -> Result<[Case; 2], AllocError> {
    let short = Case {
        text: Vec::from_slice(alloc, TEXT)?,
        wanted: Vec::from_slice(alloc, FILTERED)?,
        read: 7,
    };
    let mut long = Case {
        text: Vec::new(alloc),
        wanted: Vec::new(alloc),
        read: usize::MAX,
    };
    let spaces = vec![in alloc; b' '; CAPACITY + 1]?;
    for _ in 0..60 {
        long.text.extend_from_slice(TEXT)?;
        long.text.push(b'\n')?;
        long.wanted.extend_from_slice(FILTERED)?;
        long.wanted.push(b'\n')?;
    }
    long.text.extend_from_slice(spaces.as_slice())?;
    long.text.extend_from_slice(TEXT)?;
    long.wanted.extend_from_slice(spaces.as_slice())?;
    long.wanted.extend_from_slice(FILTERED)?;
    Ok([short, long])
}

/// Filters the text into an output over this writer, with a buffer of this many bytes.
fn run_into(
    alloc: Global,
    case: &Case,
    writer: &mut CallsWriter,
    capacity: usize,
) -> Result<(FilterOutcome, Vec<u8>), Fail> {
    let mut output = CoalescingOutput::new(BufWriter::with_capacity(alloc, capacity, writer)?);
    let reader = ChunkReader::new(case.text.as_slice(), case.read);
    Ok(run_one(alloc, reader, &mut output, false)?)
}

/// Asserts what was reported when a write or a flush failed.
fn assert_unwritten(ended: FilterOutcome, errors: &[u8], calls: usize) {
    assert_eq!(ended, FilterOutcome::WriteFailed, "at {calls}");
    assert_eq!(ended.status(), 1);
    let line: &[u8] = b"kodliwe: write failed: no space\n";
    assert_eq!(errors, line, "at {calls}");
}

/// Asserts that everything is written into a writer that accepts this many bytes at a write.
/// Returns how many calls it got.
fn assert_complete(
    alloc: Global,
    case: &Case,
    capacity: usize,
    most: usize,
) -> Result<usize, Fail> {
    let mut writer = CallsWriter::new(alloc, usize::MAX, ErrorKind::Other, most);
    let (ended, errors) = run_into(alloc, case, &mut writer, capacity)?;
    assert_eq!(ended, FilterOutcome::Complete, "by {most}, over {capacity}");
    assert!(errors.is_empty());
    let is_wanted = writer.held() == case.wanted.as_slice();
    assert!(is_wanted, "by {most}, over {capacity}");
    Ok(writer.calls())
}

#[test]
fn short_writes_write_everything() -> Result<(), Fail> {
    let rt = HostRuntime;
    let alloc = rt.alloc();
    for case in cases(alloc)?.iter() {
        for capacity in CAPACITIES {
            for most in [1, 3, 1000] {
                assert_complete(alloc, case, capacity, most)?;
            }
        }
    }
    Ok(())
}

#[test]
fn an_output_that_fails_at_any_call_holds_a_prefix() -> Result<(), Fail> {
    let rt = HostRuntime;
    let alloc = rt.alloc();
    for case in cases(alloc)?.iter() {
        for capacity in CAPACITIES {
            let all = assert_complete(alloc, case, capacity, 100)?;
            for calls in 0..all {
                // It accepts the calls after the one that fails.
                let mut writer = CallsWriter::new(alloc, calls, ErrorKind::StorageFull, 100);
                writer.fail_once();
                let (ended, errors) = run_into(alloc, case, &mut writer, capacity)?;
                assert_unwritten(ended, errors.as_slice(), calls);
                let is_beginning = case.wanted.as_slice().starts_with(writer.held());
                assert!(is_beginning, "at {calls}, over {capacity}");
            }
        }
    }
    Ok(())
}

#[test]
fn a_last_flush_that_fails_is_reported() -> Result<(), Fail> {
    let rt = HostRuntime;
    let alloc = rt.alloc();
    for case in cases(alloc)?.iter() {
        for capacity in CAPACITIES {
            // The last call is the flush after all writes.
            let calls = assert_complete(alloc, case, capacity, 100)?.saturating_sub(1);
            let mut writer = CallsWriter::new(alloc, calls, ErrorKind::StorageFull, 100);
            let (ended, errors) = run_into(alloc, case, &mut writer, capacity)?;
            assert_unwritten(ended, errors.as_slice(), calls);
            let is_whole = writer.held() == case.wanted.as_slice();
            assert!(is_whole, "over {capacity}");
        }
    }
    Ok(())
}
