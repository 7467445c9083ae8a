// Made from crates/call_tests/src/tests/folded.rt by packaging/crate/erase.py: edit that file instead.
//! Tests of symbols with `_` for their generic arguments.
use super::assert_rejected;
use crate::rustc_demangle::demangle;
use crate::rustc_demangle::sink::ArraySink;

/// Returns `true` if a text prints folded as `text` under a limit.
fn folded_is(symbol: &str, include_hash: bool, limit: usize, text: &str) -> bool {
    let symbol = demangle(symbol);
    let mut sink: ArraySink<4096> = ArraySink::new();
    let mut counted: ArraySink<4096> = ArraySink::new();
    let result = symbol.write_folded(&mut sink, include_hash, limit);

    let again = symbol.write_folded(&mut counted, include_hash, limit);
    result.is_ok() && again.is_ok() && sink.as_str() == text && counted.as_str() == text
}

#[test]
fn arguments_are_folded() {
    for &(symbol, text) in &[
        ("_RINvC3foo3barhE", "foo::bar::<_>"),
        ("_RNvMC3fooINtB2_3BarlE3baz", "<foo::Bar<_>>::baz"),
        ("_RNvNtINtC1a1bhE1c1d", "a::b::<_>::c::d"),
        ("_RYINtC1a1bhENtC1c1d", "<a::b<_> as c::d>"),
        ("_RXC1aINtC1b1chEINtC1d1elE", "<b::c<_> as d::e<_>>"),
        ("_RINvC1a1bE", "a::b::<_>"),
        ("_RINvC1a1bINtC1c1dINtC1e1fhEEINtC1g1hlEE", "a::b::<_>"),
        ("_RMC0DINtC1a1bhEEL_", "<dyn a::b<_>>"),
        (
            "_RMC0DINtC1a1bhEp4Itemhp3OutlEL_",
            "<dyn a::b<_, Item = u8, Out = i32>>",
        ),
        (
            "_RMC0DNtC1a1bp4ItemINtC1c1dhEEL_",
            "<dyn a::b<Item = c::d<_>>>",
        ),
        ("_RMC0TINtC1a1bhEB3_E", "<(a::b<_>, a::b<_>)>"),
        ("_RINvC3foo3barhE.llvm.123", "foo::bar::<_>"),
        ("_RINvC3foo3barhE.cold", "foo::bar::<_>.cold"),
    ] {
        for include_hash in [true, false] {
            assert!(folded_is(symbol, include_hash, 1_000_000, text), "{symbol}");
        }
    }
}

#[test]
fn arguments_are_neither_followed_nor_checked() {
    for &(symbol, text) in &[
        ("_RINvC1a1bL0_E", "a::b::<_>"),
        ("_RINvC1a1bRL0_hE", "a::b::<_>"),
        ("_RINvC1a1bB3_E", "a::b::<_>"),
        (
            "_RMC0FG_RL0_INtC1a1bRL0_hEEINtC1c1dhE",
            "<for<'a> fn(&'a a::b<_>) -> c::d<_>>",
        ),
    ] {
        for include_hash in [true, false] {
            assert!(folded_is(symbol, include_hash, 1_000_000, text), "{symbol}");
        }
    }
}

#[test]
fn all_else_prints_as_without_folding() {
    for &(symbol, plain, alt) in &[
        (
            "_RNvMs0_NtCs1234_5alloc7raw_vecINtB5_6RawVechE8grow_one",
            "<alloc[3c1c0]::raw_vec::RawVec<_>>::grow_one",
            "<alloc::raw_vec::RawVec<_>>::grow_one",
        ),
        (
            "_RNCINvCs4fqI2P2rA04_1a1bhE0",
            "a[317d481089b8c8fe]::b::<_>::{closure#0}",
            "a::b::<_>::{closure#0}",
        ),
        (
            "_RMC0TRhShOhAhj3_FhEuE",
            "<(&u8, [u8], *mut u8, [u8; 3usize], fn(u8))>",
            "<(&u8, [u8], *mut u8, [u8; 3], fn(u8))>",
        ),
        (
            "_RNvNtCs8a2262Dv4r_3mio4poll1f",
            "mio[1888792e1a78739]::poll::f",
            "mio::poll::f",
        ),
        (
            "_ZN3foo12Bar$LT$T$GT$17h05af221e174051e9E",
            "foo::Bar<T>::h05af221e174051e9",
            "foo::Bar<T>",
        ),
        ("foo", "foo", "foo"),
    ] {
        assert!(
            folded_is(symbol, true, 1_000_000, plain),
            "{symbol} with the hash"
        );
        assert!(
            folded_is(symbol, false, 1_000_000, alt),
            "{symbol} without the hash"
        );
    }
}

#[test]
fn folding_accepts_the_same_symbols() {
    for text in ["_RINvC1a1bh", "_RINvC1a1bRE", "_RINvC1a1b@E"] {
        assert_rejected(text, text);
        assert!(
            folded_is(text, true, 1_000_000, text),
            "{text} with the hash"
        );
        assert!(
            folded_is(text, false, 1_000_000, text),
            "{text} without the hash"
        );
    }
}

#[test]
fn a_limit_cuts_folded_pieces() {
    for &(limit, text) in &[
        (0, "{size limit reached}.x"),
        (3, "foo{size limit reached}.x"),
        (8, "foo::bar{size limit reached}.x"),
        (9, "foo::bar{size limit reached}.x"),
        (10, "foo::bar::{size limit reached}.x"),
        (11, "foo::bar::<{size limit reached}.x"),
        (12, "foo::bar::<_{size limit reached}.x"),
        (13, "foo::bar::<_>.x"),
    ] {
        assert!(
            folded_is("_RINvC3foo3barhE.x", false, limit, text),
            "at {limit}"
        );
    }
}
