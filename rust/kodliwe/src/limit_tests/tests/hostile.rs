// Made from crates/limit_tests/src/tests/hostile.rt by packaging/crate/erase.py: edit that file instead.
//! Tests of symbols that are made to do harm.
use super::{assert_prints, assert_rejected};
use crate::demangle_vectors::print_symbol;
use crate::support::format;
use crate::support::rt::HostRuntime;
use crate::support::test::Fail;
use crate::support::texts::RepeatIn;

#[test]
fn lengths_without_bound_are_rejected() {
    for &text in &[
        "_ZN1000000000000000000000000000000aE",
        "_ZN18446744073709551616aE",
        "_ZN18446744073709551617aE",
        "_ZN3foo18446744073709551615barE",
        "_ZN3foéE",
        "_ZN2éE",
    ] {
        assert_rejected(text, text);
    }
}

#[test]
fn control_characters_are_kept() {
    assert_prints("_ZN1\0E", "\0", "\0");
    assert_prints("_ZN1\x7fE", "\x7f", "\x7f");
    assert_prints("_ZN3a\nbE", "a\nb", "a\nb");
}

#[test]
fn a_million_elements_print_up_to_the_limit() -> Result<(), Fail> {
    let rt = HostRuntime;
    let alloc = rt.alloc();
    let elements = "1a".repeat_in(alloc, 1_000_000)?;
    let symbol = format!(in alloc; "_ZN{}E", elements.as_str())?;
    let path = "::a".repeat_in(alloc, 333_333)?;
    let wanted = format!(in alloc; "a{}{{size limit reached}}", path.as_str())?;
    for include_hash in [true, false] {
        let text = print_symbol(alloc, symbol.as_str(), include_hash)?;
        assert!(text.as_slice() == wanted.as_bytes());
    }
    Ok(())
}

#[test]
fn a_million_special_characters_print_as_they_should() -> Result<(), Fail> {
    let rt = HostRuntime;
    let alloc = rt.alloc();
    for &(len, unit, count, printed_unit) in &[
        (1_000_000, "$", 1_000_000, "$"),
        (1_000_000, "$.", 500_000, "$."),
        (1_000_000, "..", 500_000, "::"),
        (999_999, "$C$", 333_333, ","),
    ] {
        let element = unit.repeat_in(alloc, count)?;
        let symbol = format!(in alloc; "_ZN{len}{}E", element.as_str())?;
        let wanted = printed_unit.repeat_in(alloc, count)?;
        let text = print_symbol(alloc, symbol.as_str(), true)?;
        assert!(text.as_slice() == wanted.as_bytes(), "of {unit}");
    }
    Ok(())
}

#[test]
fn a_million_zeros_are_one_length() -> Result<(), Fail> {
    let rt = HostRuntime;
    let alloc = rt.alloc();
    let zeros = "0".repeat_in(alloc, 1_000_000)?;
    let zeros = zeros.as_str();
    let named = format!(in alloc; "_ZN{zeros}1aE")?;
    assert_eq!(
        print_symbol(alloc, named.as_str(), true)?.as_slice(),
        b"a".as_slice()
    );
    let empty = format!(in alloc; "_ZN{zeros}E")?;
    assert!(print_symbol(alloc, empty.as_str(), true)?.is_empty());
    Ok(())
}
