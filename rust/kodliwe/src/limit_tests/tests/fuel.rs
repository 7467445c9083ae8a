// Made from crates/limit_tests/src/tests/fuel.rt by packaging/crate/erase.py: edit that file instead.
//! Tests of the fuel of a parse that prints before it is known whether a text is a symbol.
use crate::demangle_sink::{ArraySink, SizeLimitedFmtAdapter};
use crate::support::rt::HostRuntime;
use crate::support::string::String;

use crate::demangle_symbol::form::Form;
use crate::demangle_v0::{FirstPrint, Printed};
use crate::support::alloc::{AllocError, Global};

use crate::support::test::Fail;

const PLAIN: Form = Form {
    include_hash: true,
    fold_arguments: false,
};

const FOLDED: Form = Form {
    include_hash: true,
    fold_arguments: true,
};

/// Prints the path of a text before the text is known to be a symbol, with a limit of its bytes and of
/// the bytes that are read again. Returns `None` if the text is not ASCII.
fn print_within(
    text: &str,
    limit: usize,
    reread: Option<usize>,
    form: Form,
) -> Option<FirstPrint<'_>> {
    if !text.is_ascii() {
        return None;
    }
    let mut sink: ArraySink<4096> = ArraySink::new();
    let mut out = SizeLimitedFmtAdapter::with_reread(&mut sink, limit, reread);

    Some(crate::demangle_v0::print_first(text, &mut out, form))
}

/// Returns whether the path of a text is printed before the text is known to be a symbol. The text ends
/// with an `x`, which is no suffix.
fn is_printed_first(text: &str, limit: usize, form: Form) -> bool {
    match print_within(text, limit, None, form) {
        Some(first) => matches!(first.printed, Printed::Symbol(_, "x")),
        None => false,
    }
}

/// Returns the beginning of a generic path, then a part so many times, and an end.
fn repeated(alloc: Global, begin: &str, part: &str, count: usize) -> Result<String, AllocError> {
    let mut symbol = String::new(alloc);
    symbol.push_str(begin)?;
    for _ in 0..count {
        symbol.push_str(part)?;
    }
    symbol.push_str("Ex")?;
    Ok(symbol)
}

fn assert_is_printed_first(text: &str, is_wanted: bool) {
    assert_eq!(is_printed_first(text, 4096, PLAIN), is_wanted, "of {text}");
}

#[test]
fn paths_of_each_kind_are_printed_first() {
    for &text in &[
        "_RNvNtCs1234_7mycrate3foo3barx",
        "_RNvNtCs1234_7mycrate3foo3barNtB2_3foox",
        "_RNvMs_NtCs1234_7mycrate3fooNtB4_3Bar3bazx",
        "_RNvXs_NtCs1234_7mycrate3fooNtB4_3BarNtB4_5Trait3bazx",
        "_RINvNtCs1234_7mycrate3foo3barNtB2_1aNtB2_1bNtB2_1cNtB2_1dEx",
        "_RINvNtCs1234_7mycrate3foo3barKc41_Ex",
        "_RINvNtCs1234_7mycrate3foo3barDNtB4_5Traitp4ItemhEL_Ex",
        "_RINvNtCs1234_7mycrate3foo3barFG0_RL0_hEuEx",
        "_RNCNvNtCs1234_7mycrate3foo3bars_0x",
        // With a second path, which is read and not printed.
        "_RNvNtC5crate4main3fooC5otherx",
        "_RINvC5crate4mainhENtC5other3barx",
    ] {
        assert_is_printed_first(text, true);
    }
}

#[test]
fn folded_paths_are_printed_first() {
    for &text in &[
        "_RNvNtCs1234_7mycrate3foo3barx",
        "_RINvNtCs1234_7mycrate3foo3barNtB2_1aNtB2_1bEx",
        "_RNvMs_NtCs1234_7mycrate3fooINtB4_3BarhE3bazC5otherx",
        // What is not printed uses up no fuel for strings and constants.
        "_RIC1aKRe616263_Kj1_Kj2_Ex",
    ] {
        assert!(is_printed_first(text, 4096, FOLDED), "of {text}");
    }
    assert!(!is_printed_first("_RNvCu9bcher_kva3foox", 4096, FOLDED));
}

/// Returns whether the path of a symbol is printed first if so many bytes may be read again.
fn is_printed_with_reread(symbol: &str, reread: usize) -> bool {
    match print_within(symbol, 4096, Some(reread), PLAIN) {
        Some(first) => matches!(first.printed, Printed::Symbol(_, "")),
        None => false,
    }
}

#[test]
fn the_limit_of_references_ends_a_first_print() {
    // The target is after 3 of the 16 bytes, so its reference may read 13 of them, and the end.
    let symbol = "_RINvC1a1bNtB2_1cE";
    for (reread, is_wanted) in [(0usize, false), (13, false), (14, true), (usize::MAX, true)] {
        assert_eq!(is_printed_with_reread(symbol, reread), is_wanted);
    }
}

#[test]
fn slow_parts_use_up_the_fuel() {
    for &text in &[
        // Punycode: of a crate, of nested paths, of an associated type, and within a reference.
        "_RNvCu9bcher_kva3foox",
        "_RNvC1au9bcher_kvax",
        "_RNtNvC1au9bcher_kva1bx",
        "_RIC1aDC1bpu9bcher_kvahEL_Ex",
        "_RIC12Cu9bcher_kvaB3_Ex",
        // Strings.
        "_RIC1aKRe616263_Ex",
        "_RIC1aKRe_Ex",
        "_RIC1aKe616263_Ex",
    ] {
        assert_is_printed_first(text, false);
    }
}

#[test]
fn constants_and_function_types_use_up_some_fuel() -> Result<(), Fail> {
    let rt = HostRuntime;
    let alloc = rt.alloc();
    // Each uses up 16 of the 128 at the start.
    for &part in &["Kj1_", "FEu"] {
        for &(count, is_wanted) in &[(1usize, true), (7, true), (8, false), (40, false)] {
            let text = repeated(alloc, "_RIC1a", part, count)?;
            assert_is_printed_first(text.as_str(), is_wanted);
        }
    }
    Ok(())
}

#[test]
fn references_have_little_fuel() -> Result<(), Fail> {
    let rt = HostRuntime;
    let alloc = rt.alloc();
    // There are 128 at the start. A reference uses up 8, and the 23 bytes of its target, which begins
    // after 8 bytes. So when the 8th begins, 7 x 31 + 8 + 47 are used up of 128 + 3 x 55, and when the
    // 9th begins, 8 x 31 + 8 + 50 of 128 + 3 x 58.
    for &(count, is_wanted) in &[(1usize, true), (8, true), (9, false), (40, false)] {
        let begin = "_RINvC1a1bC20aaaaaaaaaaaaaaaaaaaa";
        let text = repeated(alloc, begin, "B7_", count)?;
        assert_is_printed_first(text.as_str(), is_wanted);
    }
    Ok(())
}

#[test]
fn a_long_name_earns_fuel_for_references() -> Result<(), Fail> {
    let rt = HostRuntime;
    let alloc = rt.alloc();
    let mut begin = String::new(alloc);
    begin.push_str("_RINvC1a1bC240")?;
    for _ in 0..240usize {
        begin.push_str("a")?;
    }
    begin.push_str("RRRRu")?;
    let text = repeated(alloc, begin.as_str(), "B43_", 40)?;
    assert_is_printed_first(text.as_str(), true);
    Ok(())
}

#[test]
fn targets_that_enclose_their_references_end_at_once() {
    for text in ["_RIC1aTuB3_EEx", "_RYTuB0_EC1ax", "_RINvC1a1bTuTB7_EEEx"] {
        assert_is_printed_first(text, false);
    }
}

#[test]
fn a_text_ends_at_the_limit() {
    let text = "_RNvNtCs1234_7mycrate3foo3barx";
    assert!(is_printed_first(text, 24, PLAIN));
    assert!(!is_printed_first(text, 23, PLAIN));
}

/// Returns how much fuel the references of a text used up that is no symbol.
fn fuel_in_vain(text: &str) -> usize {
    let Some(FirstPrint { printed, fuel }) = print_within(text, 4096, None, PLAIN) else {
        return 0;
    };
    match printed {
        Printed::Symbol(_, _) => 0,
        Printed::NoSymbol | Printed::Unknown => fuel,
    }
}

#[test]
fn references_of_a_run_in_vain_use_up_fuel() {
    assert_eq!(fuel_in_vain("_RNvNtC3foo3bar3ba"), 0);
    assert!(fuel_in_vain("_RINvC3foo3barNtB2_1aNtB2_1b") > 0);
    assert!(fuel_in_vain("_RIC0TRhB3_B3_B3_B3_") > fuel_in_vain("_RIC0TRhB3_"));
}
