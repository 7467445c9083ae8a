// Made from crates/call_tests/src/tests/calls.rt by packaging/crate/erase.py: edit that file instead.
//! Tests of each public call, with an input for which it succeeds.
use crate::rustc_demangle::sink::{ArraySink, SinkRefused, SliceSink, TextSink, WriteSink};
use crate::rustc_demangle::{
    StreamFault, demangle, demangle_stream, demangle_stream_named, try_demangle,
};
use crate::support::alloc::Global;
use crate::support::format;
use crate::support::rt::HostRuntime;
use crate::support::vec::Vec;
use std::io;
use std::io::ErrorKind;

use crate::support::test::Fail;

const SYMBOL: &str = "_ZN3foo17h05af221e174051e9E.x.llvm.AB";

#[test]
fn symbols_are_read() {
    let stripped = "_ZN3foo17h05af221e174051e9E.x";
    assert_eq!(demangle(SYMBOL).as_str(), stripped);
    assert_eq!(demangle(SYMBOL,).as_str(), stripped);
    assert!(matches!(try_demangle(SYMBOL), Ok(symbol) if symbol.as_str() == stripped));
}

#[test]
fn symbols_are_printed() {
    let symbol = demangle(SYMBOL);

    let mut sink: ArraySink<100> = ArraySink::new();
    assert!(symbol.write_to(&mut sink, true).is_ok());
    assert_eq!(sink.as_str(), "foo::h05af221e174051e9.x");
    let mut sink: ArraySink<100> = ArraySink::new();
    assert!(symbol.write_counted(&mut sink, false,).is_ok());
    assert_eq!(sink.as_str(), "foo.x");
    let mut sink: ArraySink<100> = ArraySink::new();
    assert!(symbol.write_limited(&mut sink, true, 5).is_ok());
    assert_eq!(sink.as_str(), "foo::{size limit reached}.x");
    let mut sink: ArraySink<100> = ArraySink::new();
    assert!(symbol.write_limited(&mut sink, true, 4,).is_ok());
    assert_eq!(sink.as_str(), "foo{size limit reached}.x");
}

#[test]
fn a_value_prints_into_several_sinks() -> Result<(), Fail> {
    let rt = HostRuntime;
    let symbol = demangle(SYMBOL);
    let mut text = Vec::from_slice(rt.alloc(), b"at ")?;
    let mut sink = WriteSink::new(&mut text);
    assert!(symbol.write_to(&mut sink, false).is_ok());
    assert!(sink.put(", ").is_ok());
    assert!(symbol.write_to(&mut sink, true).is_ok());
    assert!(!sink.is_failed());
    assert!(sink.into_fault().is_none());
    assert_eq!(
        text.as_slice(),
        b"at foo.x, foo::h05af221e174051e9.x".as_slice()
    );
    Ok(())
}

/// Returns a clone of a value.
fn clone_of<T: Clone>(value: &T) -> Result<T, Fail> {
    Ok(value.clone())
}

#[test]
fn errors_are_values() -> Result<(), Fail> {
    let rt = HostRuntime;
    let alloc = rt.alloc();
    let error = try_demangle("foo").err().ok_or("no error")?;
    let again = error.clone();
    for value in [&error, &again] {
        assert_eq!(
            format!(in alloc; "{value:?}")?.as_str(),
            "TryDemangleError { _priv: () }"
        );
    }
    let refused = SinkRefused;
    let copied = refused;
    let cloned = clone_of(&refused)?;
    assert_eq!(
        format!(in alloc; "{refused:?} {copied:?} {cloned:?}")?.as_str(),
        "SinkRefused SinkRefused SinkRefused"
    );
    Ok(())
}

#[test]
fn an_array_is_a_sink() {
    let mut sink: ArraySink<4> = ArraySink::new();
    assert_eq!(sink.as_str(), "");
    for piece in ["ab", "", "c"] {
        assert!(!sink.is_failed());
        assert!(sink.put(piece).is_ok());
    }
    assert_eq!(sink.as_str(), "abc");
    assert!(!sink.is_failed());
    assert!(sink.put("de").is_err());
    assert!(sink.is_failed());
    assert_eq!(sink.as_str(), "abc");
}

#[test]
fn memory_is_a_sink() {
    let mut memory = [9; 5];
    let mut sink = SliceSink::new(&mut memory[..3]);
    assert_eq!(sink.len(), 0);
    for piece in ["a", "", "\u{e9}e", "f"] {
        assert!(!sink.is_failed());
        assert!(sink.put(piece).is_ok());
    }
    assert_eq!(sink.len(), 5);
    assert!(memory == *b"a\xc3\xa9\x09\x09");
}

#[test]
fn memory_keeps_the_prefix() {
    for &(room, text) in &[
        (0, ""),
        (1, "f"),
        (4, "foo:"),
        (8, "foo::bar"),
        (9, "foo::bar"),
    ] {
        let mut memory = [9; 12];
        let mut sink = SliceSink::new(&mut memory[..room]);
        assert!(demangle("_RNvC3foo3bar").write_to(&mut sink, true).is_ok());
        assert_eq!(sink.len(), 8, "in {room}");
        assert!(memory.starts_with(text.as_bytes()), "in {room}");
        let mut following = memory.iter().skip(text.len());
        assert!(following.all(|byte| *byte == 9), "in {room}");
    }
}

#[test]
fn streams_are_copied() -> Result<(), Fail> {
    let rt = HostRuntime;
    let alloc = rt.alloc();
    let (mut first, mut second) = (SYMBOL.as_bytes(), SYMBOL.as_bytes());
    let mut output = Vec::from_slice(alloc, b"at ")?;
    demangle_stream(alloc, &mut first, &mut output, true)?;
    assert!(first.is_empty());
    let result = demangle_stream_named(alloc, &mut second, &mut output, false);
    assert!(result.is_ok());
    assert!(second.is_empty());
    assert_eq!(
        output.as_slice(),
        b"at foo::h05af221e174051e9.xfoo.x".as_slice()
    );
    Ok(())
}

/// Asserts the kind and the text of the error that a fault becomes.
fn assert_becomes(
    alloc: Global,
    fault: StreamFault,
    wanted: (ErrorKind, &str),
) -> Result<(), Fail> {
    let (kind, text) = wanted;
    let error = fault.into_io();
    assert_eq!(error.kind(), kind);
    assert_eq!(format!(in alloc; "{error}")?.as_str(), text);
    Ok(())
}

#[test]
fn faults_become_errors() -> Result<(), Fail> {
    let rt = HostRuntime;
    let alloc = rt.alloc();
    let read = StreamFault::Read(io::Error::new(ErrorKind::TimedOut, "late"));
    assert_becomes(alloc, read, (ErrorKind::TimedOut, "late"))?;
    let write = StreamFault::Write(io::Error::new(ErrorKind::BrokenPipe, "gone"));
    assert_becomes(alloc, write, (ErrorKind::BrokenPipe, "gone"))?;
    let bytes = (ErrorKind::InvalidData, "the stream is not UTF-8");
    assert_becomes(alloc, StreamFault::NotUtf8, bytes)?;
    let memory = (ErrorKind::OutOfMemory, "out of memory");
    assert_becomes(alloc, StreamFault::Memory, memory)
}
