// Made from crates/limit_tests/src/tests/v0_hostile.rt by packaging/crate/erase.py: edit that file instead.
//! Tests of v0 symbols that are long.
use super::assert_prints_long;
use crate::demangle_vectors::{print_symbol, repeat_between};
use crate::rustc_demangle::try_demangle;
use crate::support::rt::HostRuntime;
use crate::support::test::Fail;

#[test]
fn zeros_before_a_number_are_nothing() -> Result<(), Fail> {
    let rt = HostRuntime;
    let alloc = rt.alloc();
    let symbol = repeat_between(alloc, "_RIC0Kj", "0", 100_000, "1_E")?;
    assert!(try_demangle(symbol.as_str()).is_ok());
    let plain = print_symbol(alloc, symbol.as_str(), true)?;
    assert_eq!(plain.as_slice(), b"::<1usize>".as_slice());
    let alt = print_symbol(alloc, symbol.as_str(), false)?;
    assert_eq!(alt.as_slice(), b"::<1>".as_slice());
    Ok(())
}

#[test]
fn long_names_print_as_they_are() -> Result<(), Fail> {
    let rt = HostRuntime;
    let alloc = rt.alloc();
    let symbol = repeat_between(alloc, "_RC1000000", "a", 1_000_000, "")?;
    let text = repeat_between(alloc, "", "a", 1_000_000, "")?;
    assert_prints_long(alloc, symbol.as_str(), text.as_str())?;
    let symbol = repeat_between(alloc, "_RCu1000000", "a", 1_000_000, "")?;
    let cut = "punycode{{size limit reached}";
    assert_prints_long(alloc, symbol.as_str(), cut)?;
    Ok(())
}
