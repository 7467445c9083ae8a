// Made from crates/demangle_vectors/src/tests/names.rt by packaging/crate/erase.py: edit that file instead.
//! Tests of the names of known symbols.
use crate::demangle_sink::{ArraySink, SizeLimitedFmtAdapter};
use crate::demangle_symbol::cursor::Symbol;

/// Returns `true` if the identifier at the start of a text prints as this text.
fn prints(identifier: &str, text: &str) -> bool {
    let symbol = Symbol::new(identifier);

    if !symbol.is_ascii() {
        return false;
    }
    let Ok((name, _)) = symbol.ident(0) else {
        return false;
    };
    let mut sink = ArraySink::<256>::new();
    let mut out = SizeLimitedFmtAdapter::new(&mut sink, 1_000_000);
    if name.write_to(&symbol, &mut out).is_err() {
        return false;
    }
    sink.as_str() == text
}

#[test]
fn decoded_names() {
    assert!(prints("u9bcher_kva", "bücher"));
    assert!(prints("u3tda", "ü"));
    assert!(prints("3foo", "foo"));
    assert!(prints("0", ""));
}

#[test]
fn undecoded_names() {
    assert!(prints("u3a_A", "punycode{a-A}"));
    assert!(prints("u1t", "punycode{t}"));
    assert!(prints("u14_99999999999999", "punycode{99999999999999}"));
    assert!(prints("u14_9999999999999a", "punycode{9999999999999a}"));
}

#[test]
fn names_of_128_characters() {
    assert!(prints(
        "u131aaaaaaaaaaaaaaaaaaaaaaaaaaaaaaaaaaaaaaaaaaaaaaaaaaaaaaaaaaaaaaaaaaaaaaaaaaaaaaaaaaaaaaaaaaaaaaaaaaaaaaaaaaaaaaaaaaaaaaaaaaaaaaa_ecn",
        "aaaaaaaaaaaaaaaaaaaaaaaaaaaaaaaaaaaaaaaaaaaaaaaaaaaaaaaaaaaaaaaaaaaaaaaaaaaaaaaaaaaaaaaaaaaaaaaaaaaaaaaaaaaaaaaaaaaaaaaaaaaaaaaü"
    ));
    assert!(prints(
        "u132aaaaaaaaaaaaaaaaaaaaaaaaaaaaaaaaaaaaaaaaaaaaaaaaaaaaaaaaaaaaaaaaaaaaaaaaaaaaaaaaaaaaaaaaaaaaaaaaaaaaaaaaaaaaaaaaaaaaaaaaaaaaaaaa_yfn",
        "punycode{aaaaaaaaaaaaaaaaaaaaaaaaaaaaaaaaaaaaaaaaaaaaaaaaaaaaaaaaaaaaaaaaaaaaaaaaaaaaaaaaaaaaaaaaaaaaaaaaaaaaaaaaaaaaaaaaaaaaaaaaaaaaaaaa-yfn}"
    ));
}
