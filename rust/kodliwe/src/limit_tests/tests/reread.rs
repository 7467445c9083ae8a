// Made from crates/limit_tests/src/tests/reread.rt by packaging/crate/erase.py: edit that file instead.
//! Tests of formats that limit the bytes that references make a print read again.
use crate::demangle_vectors::repeat_between;
use crate::rustc_demangle::sink::ArraySink;
use crate::rustc_demangle::{Form, Format, RereadLimit, SizeLimit, demangle};
use crate::support::format;
use crate::support::rt::HostRuntime;
use crate::support::texts::RepeatIn;

use crate::support::test::Fail;

/// A symbol of 23 bytes after its prefix, with two references to the 3 bytes at its place 3. Each
/// uses 21 bytes, and 18 of them are free again after it.
const SYMBOL: &str = "_RINvC1a1bNtB2_1cNtB2_1dE";

/// How many bytes may be read again, and the path of this symbol then.
const PATHS: [(usize, &str); 5] = [
    (0, "a::b::<{size limit reached}"),
    (20, "a::b::<{size limit reached}"),
    (21, "a::b::<a::c, {size limit reached}"),
    (23, "a::b::<a::c, {size limit reached}"),
    (24, "a::b::<a::c, a::d>"),
];

/// Returns a format with a limit of the bytes that are read again.
fn limited(reread: RereadLimit, fold_arguments: bool) -> Format {
    let form = Form {
        include_hash: false,
        fold_arguments,
    };
    Format {
        form,
        limit: SizeLimit::Bytes(1_000_000),
        reread,
    }
}

fn assert_prints_in(symbol: &str, format: Format, text: &str) {
    let mut sink: ArraySink<2048> = ArraySink::new();
    let result = demangle(symbol).write_formatted(&mut sink, format);
    assert!(result.is_ok(), "of {symbol}");
    assert_eq!(sink.as_str(), text, "of {symbol}");
}

#[test]
fn a_path_ends_before_too_many_bytes_are_read_again() {
    for (bytes, text) in PATHS {
        let format = limited(RereadLimit::Bytes(bytes), false);
        assert_prints_in(SYMBOL, format, text);
    }
    for reread in [RereadLimit::Unlimited, RereadLimit::Linear] {
        assert_prints_in(SYMBOL, limited(reread, false), "a::b::<a::c, a::d>");
    }
}

#[test]
fn a_reference_in_a_target_uses_bytes_each_time() {
    // It has 16 bytes after its prefix. The first reference uses 12, and 9 are free again after it.
    // The second uses 13, and the first, again in its target, 12.
    let symbol = "_RMC0TTThEB4_EB3_E";
    for &(bytes, text) in &[
        (11, "<(((u8,), {size limit reached}"),
        (12, "<(((u8,), (u8,)), {size limit reached}"),
        (15, "<(((u8,), (u8,)), {size limit reached}"),
        (16, "<(((u8,), (u8,)), ((u8,), {size limit reached}"),
        (27, "<(((u8,), (u8,)), ((u8,), {size limit reached}"),
        (28, "<(((u8,), (u8,)), ((u8,), (u8,)))>"),
    ] {
        let format = limited(RereadLimit::Bytes(bytes), false);
        assert_prints_in(symbol, format, text);
    }
}

#[test]
fn a_reference_that_is_not_printed_uses_no_bytes() {
    let none = RereadLimit::Bytes(0);
    assert_prints_in(SYMBOL, limited(none, true), "a::b::<_>");
    // The path of an impl is read and not printed.
    let symbol = "_RNvMINtC1a1bB3_EC1c1d";
    assert_prints_in(symbol, limited(none, false), "<c>::d");
}

#[test]
fn a_reference_to_a_dyn_trait_uses_bytes() {
    // It has 26 bytes after its prefix. The reference leads to the byte 5, and uses 22.
    let symbol = "_RIC1aDIC1buEEL_DB4_p1XhEL_E";
    for &(bytes, text) in &[
        (21, "a::<dyn b<()>, dyn {size limit reached}"),
        (22, "a::<dyn b<()>, dyn b<(), X = u8>>"),
    ] {
        let format = limited(RereadLimit::Bytes(bytes), false);
        assert_prints_in(symbol, format, text);
    }
}

#[test]
fn bytes_stay_used_after_a_part_that_is_not_printed() {
    // Each reference leads to the three bytes `C1a` at 4. The symbols have 25 and 22 bytes after the
    // prefix, so a reference uses 22 and 19 of them. Three of these stay used after it.
    let symbol = "_RMC0TC1aB3_NvMC1bC1c1dB3_E";
    let folded = "_RMC0TC1aB3_IC1eB3_EB3_E";
    for &(symbol, fold_arguments, bytes, text) in &[
        (symbol, false, 24, "<(a, a, <c>::d, {size limit reached}"),
        (symbol, false, 25, "<(a, a, <c>::d, a)>"),
        (folded, true, 21, "<(a, a, e<_>, {size limit reached}"),
        (folded, true, 22, "<(a, a, e<_>, a)>"),
        (folded, false, 24, "<(a, a, e<a>, {size limit reached}"),
        (folded, false, 25, "<(a, a, e<a>, a)>"),
    ] {
        let format = limited(RereadLimit::Bytes(bytes), fold_arguments);
        assert_prints_in(symbol, format, text);
    }
}

#[test]
fn bytes_stay_used_in_a_larger_stack() -> Result<(), Fail> {
    let rt = HostRuntime;
    let alloc = rt.alloc();
    // Trait objects in one another need a larger stack, and then the largest. Each has 9 bytes. All
    // others are 14. A reference leads to the byte 4, and three bytes stay used after it.
    for depth in [10, 100, 240] {
        let open = "DIC1b".repeat_in(alloc, depth)?;
        let close = "EEL_".repeat_in(alloc, depth)?;
        let symbol = format!(in alloc; "_RMC0TC1aB3_{open}B3_{close}E")?;
        let uses = 9 * depth + 14 - 4 + 1;
        let open = "dyn b<".repeat_in(alloc, depth)?;
        let close = ">".repeat_in(alloc, depth)?;
        let cut = format!(in alloc; "<(a, a, {open}{{size limit reached}}")?;
        let whole = format!(in alloc; "<(a, a, {open}a{close})>")?;
        for (bytes, text) in [(uses + 2, &cut), (uses + 3, &whole)] {
            let format = limited(RereadLimit::Bytes(bytes), false);
            assert_prints_in(symbol.as_str(), format, text.as_str());
        }
    }
    Ok(())
}

#[test]
fn the_suffix_follows_the_marker() {
    let symbol = "_RINvC1a1bNtB2_1cNtB2_1dE.rest";
    let text = "a::b::<{size limit reached}.rest";
    let format = limited(RereadLimit::Bytes(0), false);
    assert_prints_in(symbol, format, text);
}

/// The prefix and the suffix of a symbol, then the commas in the last tuple of its path, and what
/// follows them.
const TUPLES: [(&str, &str, usize, &str); 5] = [
    ("R", "", 26, "{size limit reached}"),
    ("_R", "", 28, "{size limit reached}"),
    ("__R", "", 30, "{size limit reached}"),
    ("_R", ".a", 30, "))>.a"),
    ("_R", ".llvm.1234", 28, "{size limit reached}"),
];

#[test]
fn each_byte_of_a_symbol_allows_384() -> Result<(), Fail> {
    let rt = HostRuntime;
    // A tuple has a path of 188 bytes that prints nothing, and 30 references to it. Another tuple has
    // this one and 22 references to it. All are 351 bytes. The first tuple uses 30 x 188 bytes, and
    // each reference to it 280 more. The last of these uses 348 while it is printed. So 130,308 are
    // used when it begins. Each reference to the path then uses 347, and 159 are free again after it.
    // With `_R` they may use 384 x 353, which allows 27 of them. A suffix is a part of the symbol.
    let alloc = rt.alloc();
    let names = "0".repeat_in(alloc, 62)?;
    let path = repeat_between(alloc, "", "Nt", 62, "C0")?;
    let inner = repeat_between(alloc, "", "B4_", 30, "E")?;
    let outer = repeat_between(alloc, "", "B3_", 22, "E")?;
    let whole = repeat_between(alloc, "(", ", ", 30, "), ")?;
    let first = repeat_between(alloc, "<(", whole.as_str(), 22, "(")?;
    for (prefix, suffix, commas, rest) in TUPLES {
        let symbol = format!(in alloc; "{prefix}MC0TT{path}{names}{inner}{outer}{suffix}")?;
        let text = repeat_between(alloc, first.as_str(), ", ", commas, rest)?;
        for fold_arguments in [false, true] {
            let format = limited(RereadLimit::Linear, fold_arguments);
            assert_prints_in(symbol.as_str(), format, text.as_str());
        }
    }
    Ok(())
}
