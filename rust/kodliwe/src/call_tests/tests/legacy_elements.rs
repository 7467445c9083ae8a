// Made from crates/call_tests/src/tests/legacy_elements.rt by packaging/crate/erase.py: edit that file instead.
//! Tests of known symbols.
use crate::demangle_legacy::demangle;
use crate::demangle_sink::{ArraySink, SizeLimitedFmtAdapter};

use crate::demangle_symbol::form::Form;

/// Returns `true` if a text parses as a symbol, prints as `text` and leaves this suffix.
fn prints(symbol: &str, include_hash: bool, text: &str, suffix: &str) -> bool {
    let Ok((read, left)) = demangle(symbol, false) else {
        return false;
    };
    let mut sink = ArraySink::<256>::new();
    let mut out = SizeLimitedFmtAdapter::new(&mut sink, 1_000_000);
    let form = Form {
        include_hash,
        fold_arguments: false,
    };
    if read.write_to(&mut out, form).is_err() {
        return false;
    }
    sink.as_str() == text && left == suffix
}

#[test]
fn symbols_print_their_elements() {
    let symbol = "_ZN3foo17h05af221e174051e9E";
    assert!(prints(symbol, true, "foo::h05af221e174051e9", ""));
    assert!(prints(symbol, false, "foo", ""));
    assert!(prints("_ZN8$BP$test4foobE", true, "*test::foob", ""));
    assert!(prints("ZN4testE", true, "test", ""));
    assert!(prints("_ZN3fooE.x", true, "foo", ".x"));
    assert!(prints("_ZNE", true, "", ""));
}

#[test]
fn other_texts_are_rejected() {
    for text in ["", "test", "_ZN", "_ZN4test", "_ZNfooE", "_RC3foo"] {
        assert!(demangle(text, false,).is_err(), "{text}");
    }
}
