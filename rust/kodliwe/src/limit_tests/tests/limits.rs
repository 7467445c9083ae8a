// Made from crates/limit_tests/src/tests/limits.rt by packaging/crate/erase.py: edit that file instead.
//! Tests of symbols under a size limit.
use super::assert_prints_long;
use crate::rustc_demangle::demangle;
use crate::rustc_demangle::sink::{ArraySink, TextSink};
use crate::support::format;
use crate::support::rt::HostRuntime;
use crate::support::test::Fail;
use crate::support::texts::RepeatIn;

/// Returns `true` if a text prints as `text` under a limit.
fn limited_is(symbol: &str, include_hash: bool, limit: usize, text: &str) -> bool {
    let symbol = demangle(symbol);
    let mut sink: ArraySink<4096> = ArraySink::new();
    let mut counted: ArraySink<4096> = ArraySink::new();
    let result = symbol.write_limited(&mut sink, include_hash, limit);

    let again = symbol.write_limited(&mut counted, include_hash, limit);
    result.is_ok() && again.is_ok() && sink.as_str() == text && counted.as_str() == text
}

#[test]
fn a_limit_cuts_whole_pieces() {
    for &(symbol, limit, text) in &[
        ("_ZN3foo3barE", 5, "foo::{size limit reached}"),
        ("_ZN3foo3barE", 0, "{size limit reached}"),
        ("_ZNE", 0, ""),
        ("_ZN3foo0E", 5, "foo::"),
        ("_ZN3fooE.x", 0, "{size limit reached}.x"),
        ("foo", 0, "foo"),
        ("_ZN1a1bE", 0, "{size limit reached}"),
        ("_ZN1a1bE", 1, "a{size limit reached}"),
        ("_ZN1a1bE", 2, "a{size limit reached}"),
        ("_ZN1a1bE", 3, "a::{size limit reached}"),
        ("_ZN1a1bE", 4, "a::b"),
        ("_ZN8$BP$test4foobE", 4, "*{size limit reached}"),
        ("_ZN4a.$bE.x", 1, "a{size limit reached}.x"),
        ("_ZN4a.$bE.x", 3, "a.{size limit reached}.x"),
        ("_ZN4a.$bE.x", 4, "a.$b.x"),
        ("_ZN4$LT$3barE.llvm.x", 2, "<{size limit reached}.llvm.x"),
        ("_ZN4$LT$3barE.llvm.x", 5, "<::{size limit reached}.llvm.x"),
        ("_ZN4$LT$3barE.llvm.x", 6, "<::bar.llvm.x"),
        ("_RMC0FG_RL0_hEu", 20, "<for<'a> fn(&'a u8)>"),
        (
            "_RMC0FG_RL0_hEu",
            19,
            "<for<'a> fn(&'a u8){size limit reached}",
        ),
        ("_RMC0FG_RL0_hEu", 11, "<for<'a> {size limit reached}"),
        ("_RMC0FG_RL0_hEu", 0, "{size limit reached}"),
        ("_RC3foo.x", 2, "{size limit reached}.x"),
        ("_RC3foo.x", 3, "foo.x"),
    ] {
        for include_hash in [true, false] {
            assert!(
                limited_is(symbol, include_hash, limit, text),
                "{symbol} at {limit}"
            );
        }
    }
}

#[test]
fn a_hash_that_is_left_out_counts_nothing() {
    let symbol = "_ZN3foo17h05af221e174051e9E";
    for &(limit, text) in &[
        (2, "{size limit reached}"),
        (3, "foo{size limit reached}"),
        (21, "foo::{size limit reached}"),
        (22, "foo::h05af221e174051e9"),
    ] {
        assert!(limited_is(symbol, true, limit, text), "at {limit}");
    }
    assert!(limited_is(symbol, false, 2, "{size limit reached}"));
    assert!(limited_is(symbol, false, 3, "foo"));
}

#[test]
fn a_million_bytes_are_printed_and_no_more() -> Result<(), Fail> {
    let rt = HostRuntime;
    let alloc = rt.alloc();
    let million = "a".repeat_in(alloc, 1_000_000)?;
    let million = million.as_str();
    let full = format!(in alloc; "_ZN1000000{million}E")?;
    let longer = format!(in alloc; "_ZN1000001a{million}E")?;
    let followed = format!(in alloc; "_ZN1000000{million}1bE")?;
    let cut = format!(in alloc; "{million}{{size limit reached}}")?;
    assert_prints_long(alloc, full.as_str(), million)?;
    assert_prints_long(alloc, longer.as_str(), "{size limit reached}")?;
    assert_prints_long(alloc, followed.as_str(), cut.as_str())?;
    Ok(())
}

#[test]
fn the_marker_is_one_piece() -> Result<(), Fail> {
    let rt = HostRuntime;
    let alloc = rt.alloc();
    let million = "a".repeat_in(alloc, 1_000_000)?;
    let million = million.as_str();
    let longer = format!(in alloc; "_ZN1000001a{million}E")?;
    let symbol = demangle(longer.as_str());
    for include_hash in [true, false] {
        let mut sink: ArraySink<10> = ArraySink::new();
        assert!(symbol.write_to(&mut sink, include_hash).is_err());
        assert!(sink.is_failed());
        assert_eq!(sink.as_str(), "");
        let mut sink: ArraySink<20> = ArraySink::new();
        assert!(symbol.write_to(&mut sink, include_hash).is_ok());
        assert!(!sink.is_failed());
        assert_eq!(sink.as_str(), "{size limit reached}");
    }
    Ok(())
}

#[test]
fn the_marker_fits_or_is_rejected() {
    let symbol = demangle("_ZN3foo3barE");
    for include_hash in [true, false] {
        let mut sink: ArraySink<25> = ArraySink::new();
        assert!(symbol.write_limited(&mut sink, include_hash, 5).is_ok());
        assert_eq!(sink.as_str(), "foo::{size limit reached}");
        let mut sink: ArraySink<24> = ArraySink::new();
        assert!(symbol.write_limited(&mut sink, include_hash, 5).is_err());
        assert!(sink.is_failed());
        assert_eq!(sink.as_str(), "foo::");
    }
}
