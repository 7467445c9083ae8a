// Made from crates/call_tests/src/tests/pieces.rt by packaging/crate/erase.py: edit that file instead.
//! Tests of the pieces that sinks take and that the limit passes.
use crate::demangle_sink::{ArraySink, SizeLimitedFmtAdapter, TextSink, put_char, put_each};

#[test]
fn a_sink_takes_what_fits() {
    let mut sink = ArraySink::<4>::new();
    assert!(sink.put("ab").is_ok());
    assert!(sink.put("").is_ok());
    assert!(sink.put("cd").is_ok());
    assert!(!sink.is_failed());
    assert!(sink.put("e").is_err());
    assert!(sink.is_failed());
    assert_eq!(sink.as_str(), "abcd");
}

#[test]
fn the_limit_passes_whole_pieces() {
    let mut sink = ArraySink::<64>::new();
    let mut out = SizeLimitedFmtAdapter::new(&mut sink, 5);
    assert!(put_each(&["a", "", "b"], &mut out).is_ok());
    assert!(put_char('ü', &mut out).is_ok());
    assert!(!out.is_limit_reached());
    assert!(put_char('ö', &mut out).is_err());
    assert!(out.is_limit_reached());
    assert_eq!(sink.as_str(), "abü");
}
