// Made from crates/filter_tests/src/tests/texts.rt by packaging/crate/erase.py: edit that file instead.
//! Tests of texts and bytes in memory, which are written to sinks and slices.
use super::stream::{EACH_RUN, ROWS};
use crate::rustc_demangle::sink::{ArraySink, TextSink};
use crate::rustc_demangle::{
    demangle_slice, demangle_text, demangle_text_limited, run_len, run_start,
};

use crate::support::test::Fail;
use crate::test_doubles::RefusingSink;
use core::str;

#[test]
fn a_text_is_put_into_a_sink() -> Result<(), Fail> {
    for (text, wanted) in ROWS.iter().chain(EACH_RUN.iter()) {
        let text = str::from_utf8(text)?;
        for include_hash in [true, false] {
            let mut sink: ArraySink<256> = ArraySink::new();
            assert!(
                demangle_text(text, &mut sink, include_hash).is_ok(),
                "{text}"
            );
            assert_eq!(sink.as_str().as_bytes(), *wanted, "{text}");
        }
    }
    Ok(())
}

#[test]
fn a_text_leaves_out_a_hash() {
    let text = "<_ZN3foo17h05af221e174051e9E>\n";
    let mut sink: ArraySink<64> = ArraySink::new();
    assert!(demangle_text(text, &mut sink, true).is_ok());
    assert_eq!(sink.as_str(), "<foo::h05af221e174051e9>\n");
    let mut sink: ArraySink<64> = ArraySink::new();
    assert!(demangle_text(text, &mut sink, false).is_ok());
    assert_eq!(sink.as_str(), "<foo>\n");
}

#[test]
fn each_piece_of_a_text_is_rejected_in_turn() {
    let text = "x _RCx _ZN1a1bE.x y";
    let texts = [
        "",
        "x ",
        "x _RCx",
        "x _RCx ",
        "x _RCx a",
        "x _RCx a::",
        "x _RCx a::b",
        "x _RCx a::b.x",
        "x _RCx a::b.x y",
    ];
    for (pieces, wanted) in texts.iter().enumerate() {
        let mut sink = RefusingSink::new(pieces.saturating_add(1));
        let result = demangle_text(text, &mut sink, true);
        assert_eq!(result.is_ok(), pieces == 8, "after {pieces}");
        assert_eq!(sink.is_failed(), pieces != 8, "after {pieces}");
        assert_eq!(sink.as_str(), *wanted, "after {pieces}");
    }
}

#[test]
fn a_limit_cuts_each_symbol_of_a_text() {
    let mut sink: ArraySink<64> = ArraySink::new();
    let text = "_ZN3foo3barE, _ZN1aE.x";
    assert!(demangle_text_limited(text, &mut sink, true, 3).is_ok());
    assert_eq!(sink.as_str(), "foo{size limit reached}, a.x");
}

/// Asserts the output for bytes in a slice with room for it, and in smaller ones.
pub(super) fn assert_fills(text: &[u8], wanted: &[u8]) {
    for size in 0..=wanted.len().saturating_add(1).min(128) {
        let mut bytes = [7; 128];
        let memory = bytes.get_mut(..size).unwrap_or(&mut []);
        let len = demangle_slice(text, memory, true, 1_000_000);
        assert_eq!(len, Some(wanted.len()), "of {text:?}");
        let kept = wanted.len().min(size);
        assert_eq!(bytes.get(..kept), wanted.get(..kept), "of {text:?}");
        assert!(
            bytes.iter().skip(kept).all(|byte| *byte == 7),
            "of {text:?}"
        );
    }
}

#[test]
fn any_bytes_are_written_into_memory() {
    for (text, wanted) in ROWS {
        assert_fills(text, wanted);
    }
    assert_fills(b"caf\xE9 _ZN3fooE\xE9\0", b"caf\xE9 foo\xE9\0");
    assert_fills(b"\xFF_ZN3fooE\xFF", b"\xFFfoo\xFF");
    assert_fills(b"_ZN3f\xC3\xA9E", b"_ZN3f\xC3\xA9E");
}

#[test]
fn a_limit_cuts_each_symbol_of_bytes() {
    let mut bytes = [0; 64];
    let len = demangle_slice(b"\xE9_ZN3foo3barE _ZN1aE", &mut bytes, true, 3);
    assert_eq!(len, Some(26));
    assert_eq!(
        bytes.get(..26),
        Some(b"\xE9foo{size limit reached} a".as_slice())
    );
}

#[test]
fn runs_are_found() {
    let cases: [(&[u8], Option<usize>, usize); 8] = [
        (b"", None, 0),
        (b"a_b", None, 3),
        (b"_Z_ZNx", Some(2), 6),
        (b" _R", Some(1), 0),
        (b"_ZN1aE.$_\xE9", Some(0), 9),
        (b"\xFF\0_R-", Some(2), 0),
        (b"_z_r", None, 4),
        (b"0Az-", None, 3),
    ];
    for (text, start, len) in cases {
        assert_eq!(run_start(text), start, "in {text:?}");
        assert_eq!(run_len(text), len, "of {text:?}");
    }
}
