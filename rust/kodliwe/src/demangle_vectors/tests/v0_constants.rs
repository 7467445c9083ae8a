// Made from crates/demangle_vectors/src/tests/v0_constants.rt by packaging/crate/erase.py: edit that file instead.
//! Tests of v0 symbols: constants.
use super::{assert_prints, assert_rejected};
use crate::support::alloc::Global;
use crate::support::format;
use crate::support::rt::HostRuntime;

use crate::support::test::Fail;

/// Asserts the printed form of a constant as the only argument of a path, with the types of its
/// numbers and without them.
pub fn assert_constant(alloc: Global, constant: &str, plain: &str, alt: &str) -> Result<(), Fail> {
    let symbol = format!(in alloc; "_RIC0K{constant}E")?;
    let plain = format!(in alloc; "::<{plain}>")?;
    let alt = format!(in alloc; "::<{alt}>")?;
    assert_prints(symbol.as_str(), plain.as_str(), alt.as_str());
    Ok(())
}

#[test]
fn numbers_have_their_type_only_in_the_plain_form() -> Result<(), Fail> {
    let rt = HostRuntime;
    for &(constant, plain, alt) in &[
        ("j_", "0usize", "0"),
        ("j0_", "0usize", "0"),
        ("i1_", "1isize", "1"),
        ("l1_", "1i32", "1"),
        ("x1_", "1i64", "1"),
        ("nn1_", "-1i128", "-1"),
        ("t1_", "1u16", "1"),
        ("m1_", "1u32", "1"),
        ("y1_", "1u64", "1"),
        ("o1_", "1u128", "1"),
        ("h00ff_", "255u8", "255"),
        ("an0_", "-0i8", "-0"),
    ] {
        assert_constant(rt.alloc(), constant, plain, alt)?;
    }
    Ok(())
}

#[test]
fn numbers_of_up_to_128_bits_are_decimal() -> Result<(), Fail> {
    let rt = HostRuntime;
    for &(constant, plain, alt) in &[
        (
            "o00ff00ff00ff00ff00ff_",
            "4703991516010230251775u128",
            "4703991516010230251775",
        ),
        (
            "yffffffffffffffff_",
            "18446744073709551615u64",
            "18446744073709551615",
        ),
        (
            "h10000000000000000_",
            "18446744073709551616u8",
            "18446744073709551616",
        ),
        (
            "offffffffffffffffffffffffffffffff_",
            "340282366920938463463374607431768211455u128",
            "340282366920938463463374607431768211455",
        ),
        (
            "nn80000000000000000000000000000000_",
            "-170141183460469231731687303715884105728i128",
            "-170141183460469231731687303715884105728",
        ),
        (
            "o000ffffffffffffffffffffffffffffffff_",
            "340282366920938463463374607431768211455u128",
            "340282366920938463463374607431768211455",
        ),
    ] {
        assert_constant(rt.alloc(), constant, plain, alt)?;
    }
    Ok(())
}

#[test]
fn longer_numbers_keep_their_nibbles() -> Result<(), Fail> {
    let rt = HostRuntime;
    for &(constant, plain, alt) in &[
        (
            "o100000000000000000000000000000000_",
            "0x100000000000000000000000000000000u128",
            "0x100000000000000000000000000000000",
        ),
        (
            "h0100000000000000000000000000000000_",
            "0x0100000000000000000000000000000000u8",
            "0x0100000000000000000000000000000000",
        ),
        (
            "ln100000000000000000000000000000000_",
            "-0x100000000000000000000000000000000i32",
            "-0x100000000000000000000000000000000",
        ),
    ] {
        assert_constant(rt.alloc(), constant, plain, alt)?;
    }
    Ok(())
}

#[test]
fn booleans_and_placeholders() -> Result<(), Fail> {
    let rt = HostRuntime;
    for (constant, text) in [("b_", "false"), ("b00_", "false"), ("b0001_", "true")] {
        assert_constant(rt.alloc(), constant, text, text)?;
    }
    Ok(())
}

#[test]
fn references() -> Result<(), Fail> {
    let rt = HostRuntime;
    for &(constant, plain, alt) in &[
        ("Qh1_", "{&mut 1u8}", "{&mut 1}"),
        ("RQh1_", "{&&mut 1u8}", "{&&mut 1}"),
        ("RAE", "{&[]}", "{&[]}"),
    ] {
        assert_constant(rt.alloc(), constant, plain, alt)?;
    }
    Ok(())
}

#[test]
fn arrays_and_tuples() -> Result<(), Fail> {
    let rt = HostRuntime;
    let text = "{[*\"a\"]}";
    assert_constant(rt.alloc(), "Ae61_E", text, text)?;
    Ok(())
}

#[test]
fn values_of_structs_and_enums() -> Result<(), Fail> {
    let rt = HostRuntime;
    for &(constant, plain, alt) in &[
        ("VC1aTE", "{a()}", "{a()}"),
        ("VC1aSE", "{a {  }}", "{a {  }}"),
        ("VC1aSs_1xh1_E", "{a { x: 1u8 }}", "{a { x: 1 }}"),
        ("AVC1aUE", "{[a]}", "{[a]}"),
    ] {
        assert_constant(rt.alloc(), constant, plain, alt)?;
    }
    Ok(())
}

#[test]
fn a_constant_over_a_failed_path_stays_open() -> Result<(), Fail> {
    let rt = HostRuntime;
    for &(constant, text) in &[
        ("VIC1aL0_EU", "{a::<'{invalid syntax}>?"),
        ("AVIC1aL0_EUE", "{[a::<'{invalid syntax}>?]}"),
    ] {
        assert_constant(rt.alloc(), constant, text, text)?;
    }
    Ok(())
}

#[test]
fn malformed_constants_are_rejected() {
    for &text in &[
        "_RIC0Kb2_E",
        "_RIC0Kb10_E",
        "_RIC0Kcd800_E",
        "_RIC0Kcdfff_E",
        "_RIC0Kc110000_E",
        "_RIC0Kc100000000000000000000000000000000_E",
        "_RIC0Ke6_E",
        "_RIC0Kec080_E",
        "_RIC0Keff_E",
        "_RIC0Keeda080_E",
        "_RIC0KfF_E",
        "_RIC0KhE",
        "_RIC0KhF_E",
        "_RIC0Khn1_E",
        "_RIC0Kf1_E",
        "_RIC0KVE",
        "_RIC0KVC1aXE",
        "_RIC0KAUE",
        "_RIC0Kp_E",
        "_RIC0KgpE",
        "_RIC0KeG_E",
        "_RIC0KzE",
    ] {
        assert_rejected(text, text);
    }
}
