// Made from crates/demangle_vectors/src/tests/v0_references.rt by packaging/crate/erase.py: edit that file instead.
//! Tests of v0 symbols: back references, and the output for a damaged target.
use super::{assert_prints, assert_rejected};

#[test]
fn references_print_their_targets() {
    for &(symbol, text) in &[
        (
            "_RIC1aDIC1buEEL_DB4_p1XhEL_E",
            "a::<dyn b<()>, dyn b<(), X = u8>>",
        ),
        ("_RMC0TC1aB3_E", "<(a, a)>"),
        ("_RIC1aRhB3_E", "a::<&u8, &u8>"),
    ] {
        assert_prints(symbol, text, text);
    }
}

#[test]
fn constants_are_referred_to() {
    for &(symbol, plain, alt) in &[
        ("_RIC1aKj7_KB4_E", "a::<7usize, 7usize>", "a::<7, 7>"),
        (
            "_RMC0TAhj3_AhB5_E",
            "<([u8; 3usize], [u8; 3usize])>",
            "<([u8; 3], [u8; 3])>",
        ),
    ] {
        assert_prints(symbol, plain, alt);
    }
}

#[test]
fn pairs_of_pairs() {
    for &(symbol, text) in &[
        ("_RMC0TThEB3_E", "<((u8,), (u8,))>"),
        ("_RMC0TTThEB4_EB3_E", "<(((u8,), (u8,)), ((u8,), (u8,)))>"),
        (
            "_RMC0TTTThEB5_EB4_EB3_E",
            "<((((u8,), (u8,)), ((u8,), (u8,))), (((u8,), (u8,)), ((u8,), (u8,))))>",
        ),
    ] {
        assert_prints(symbol, text, text);
    }
}

#[test]
fn lifetimes_are_those_of_the_reference() {
    for &(symbol, text) in &[
        ("_RIC5RL0_hFG_B2_EuE", "RL0_h::<for<'a> fn(&'a u8)>"),
        ("_RIC5RL0_hB2_uE", "RL0_h::<&'{invalid syntax} ?, ()>"),
    ] {
        assert_prints(symbol, text, text);
    }
}

#[test]
fn names_and_crates_can_be_targets() {
    for &(symbol, text) in &[
        ("_RIC2C5B2_E.zz", "C5::<B2_E.>.zz"),
        ("_RIC2C6B2_EC1b", "C6::<B2_EC1>"),
        ("_RIC2MCB2_E", "MC::<<?>>"),
    ] {
        assert_prints(symbol, text, text);
    }
}

#[test]
fn a_list_with_a_failed_element_is_closed() {
    for &(symbol, text) in &[
        ("_RIC3TZpB2_E", "TZp::<({invalid syntax},)>"),
        ("_RIC1aB1_E", "a::<{invalid syntax}>"),
        ("_RIC1aB0_E", "a::<a>"),
    ] {
        assert_prints(symbol, text, text);
    }
}

#[test]
fn a_value_over_a_failed_path_stays_open() {
    let text = "VZp::<{{invalid syntax}?>";
    assert_prints("_RIC3VZpKB2_E", text, text);
}

#[test]
fn errors_inside_a_pattern_or_a_dynamic_type_are_marked() {
    for &(symbol, text) in &[
        (
            "_RIC5WmOZEB2_E",
            "WmOZE::<u32 is {invalid syntax}{invalid syntax}>",
        ),
        ("_RIC8DC1aEL0_B2_E", "DC1aEL0_::<dyn a + '{invalid syntax}>"),
        (
            "_RIC4DZELB2_E",
            "DZEL::<dyn {invalid syntax}{invalid syntax}>",
        ),
    ] {
        assert_prints(symbol, text, text);
    }
}

#[test]
fn an_open_trait_path_stays_open_after_its_reference() {
    for &(symbol, plain, alt) in &[
        (
            "_RYTC20DIC1aDC1bEL_Ep1xmEL_B4_EC1b",
            "<(DIC1aDC1bEL_Ep1xmEL_, dyn a<dyn b, x = u32>) as b>",
            "<(DIC1aDC1bEL_Ep1xmEL_, dyn a<dyn b, x = u32>) as b>",
        ),
        (
            "_RYTC22DYDIC1amEEL_C1bp1xmEL_B4_EC1b",
            "<(DYDIC1amEEL_C1bp1xmEL_, dyn <dyn a<u32> as b><x = u32>) as b>",
            "<(DYDIC1amEEL_C1bp1xmEL_, dyn <dyn a<u32> as b><x = u32>) as b>",
        ),
        (
            "_RYTC24DIC1amEp1xDC1bEL_p1ymEL_B4_EC1b",
            "<(DIC1amEp1xDC1bEL_p1ymEL_, dyn a<u32, x = dyn b, y = u32>) as b>",
            "<(DIC1amEp1xDC1bEL_p1ymEL_, dyn a<u32, x = dyn b, y = u32>) as b>",
        ),
        (
            "_RYTC20DC1ap1xDIC1amEEL_EL_B4_EC1b",
            "<(DC1ap1xDIC1amEEL_EL_, dyn a<x = dyn a<u32>>) as b>",
            "<(DC1ap1xDIC1amEEL_EL_, dyn a<x = dyn a<u32>>) as b>",
        ),
        (
            "_RYTC9DIC1amEB$B3_EC1b",
            "<(DIC1amEB$, dyn a<u32> + {invalid syntax}{invalid syntax}) as b>",
            "<(DIC1amEB$, dyn a<u32> + {invalid syntax}{invalid syntax}) as b>",
        ),
        (
            "_RYTC4I@@@DB3_p1xmEL_EC1b",
            "<(I@@@, dyn {invalid syntax}<, x = u32>) as b>",
            "<(I@@@, dyn {invalid syntax}<, x = u32>) as b>",
        ),
    ] {
        assert_prints(symbol, plain, alt);
    }
}

#[test]
fn references_ahead_are_rejected() {
    for &text in &[
        "_RB_",
        "_RIC1aB4_E",
        "_RIC1aB9_E",
        "_RMC0B3_",
        "_RNvB1_1a",
        "_RIC1aKB5_E",
        "_RIC1aB_",
    ] {
        assert_rejected(text, text);
    }
}
