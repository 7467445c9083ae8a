// Made from crates/demangle_vectors/src/tests/v0_paths.rt by packaging/crate/erase.py: edit that file instead.
//! Tests of v0 symbols: names and paths.
use super::{assert_prints, assert_rejected};

#[test]
fn a_crate_has_a_disambiguator_only_in_the_plain_form() {
    for &(symbol, plain, alt) in &[
        ("_RCs_3foo", "foo[1]", "foo"),
        ("_RCslYGhA16ahyd_1a", "a[ffffffffffffffff]", "a"),
        ("_RCs0_3foo", "foo[2]", "foo"),
        ("_RCsZ_3foo", "foo[3f]", "foo"),
    ] {
        assert_prints(symbol, plain, alt);
    }
}

#[test]
fn nested_names_have_two_colons_between() {
    for &(symbol, plain, alt) in &[
        ("_RNvC1a0", "a", "a"),
        ("_RNvCs_1as_1b", "a[1]::b", "a::b"),
        (
            "_RNvMNtNtNtNtCs8a2262Dv4r_3mio3sys4unix8selector5epollNtB2_8Selector6select",
            "<mio[1888792e1a78739]::sys::unix::selector::epoll::Selector>::select",
            "<mio::sys::unix::selector::epoll::Selector>::select",
        ),
    ] {
        assert_prints(symbol, plain, alt);
    }
}

#[test]
fn special_namespaces_have_a_number() {
    for &(symbol, text) in &[
        ("_RNCC1a0", "a::{closure#0}"),
        ("_RNSC1as_4vtbl", "a::{shim:vtbl#1}"),
        ("_RNZC1a0", "a::{Z#0}"),
        ("_RNCC1as_0", "a::{closure#1}"),
        ("_RNAC1a1b", "a::{A:b#0}"),
    ] {
        assert_prints(symbol, text, text);
    }
}

#[test]
fn implementations_have_no_path() {
    for &(symbol, text) in &[
        ("_RXC0uC1t", "<() as t>"),
        ("_RMC0u", "<()>"),
        ("_RYuC1t", "<() as t>"),
        ("_RXs_C0uC1t", "<() as t>"),
        ("_RMNvC1a1bC1c", "<c>"),
    ] {
        assert_prints(symbol, text, text);
    }
}

#[test]
fn a_value_has_two_colons_before_its_arguments() {
    for &(symbol, text) in &[
        ("_RIC1aE", "a::<>"),
        ("_RIC1auE", "a::<()>"),
        ("_RIC1aL_uKpE", "a::<'_, (), _>"),
        ("_RMC0IC1auE", "<a<()>>"),
        ("_RYIC1auEIC1tuE", "<a<()> as t<()>>"),
    ] {
        assert_prints(symbol, text, text);
    }
}

#[test]
fn constants_can_be_arguments() {
    for &(symbol, plain, alt) in &[
        ("_RIC1aKj0_E", "a::<0usize>", "a::<0>"),
        (
            "_RIC1auKhb_Kb1_E",
            "a::<(), 11u8, true>",
            "a::<(), 11, true>",
        ),
    ] {
        assert_prints(symbol, plain, alt);
    }
}

#[test]
fn names_in_punycode_are_decoded() {
    for &(symbol, text) in &[
        ("_RCu9bcher_kva", "bücher"),
        ("_RCu3tda", "ü"),
        // A delta of 455 is the last that is not divided again, and one of 456 the first that is.
        ("_RCu11ab_cja24e9f", "abéƟǇ"),
        ("_RCu8_9ca22dpd", "éșɁ"),
        ("_RCu8gdel_5qa", "gödel"),
        (
            "_RNqC11utf8_identsu30____7hkackfecea1cbdathfdh9hlq6y",
            "utf8_idents::საჭმელად_გემრიელი_სადილი",
        ),
    ] {
        assert_prints(symbol, text, text);
    }
}

#[test]
fn names_that_are_not_punycode_print_as_they_are() {
    for &(symbol, text) in &[
        ("_RCu3a_A", "punycode{a-A}"),
        ("_RCu1t", "punycode{t}"),
        ("_RCu14_99999999999999", "punycode{99999999999999}"),
        ("_RCu14_9999999999999a", "punycode{9999999999999a}"),
    ] {
        assert_prints(symbol, text, text);
    }
}

#[test]
fn each_prefix_is_read() {
    for (symbol, text) in [("_RC1a", "a"), ("RC1a", "a"), ("__RC1a", "a")] {
        assert_prints(symbol, text, text);
    }
}

#[test]
fn an_instantiating_crate_is_not_printed() {
    for &(symbol, text) in &[
        ("_RC1aC1b", "a"),
        ("_RC1aC1b.x", "a.x"),
        ("_RC1aC1b.", "a."),
    ] {
        assert_prints(symbol, text, text);
    }
}

#[test]
fn suffixes_follow_the_path() {
    for &(symbol, text) in &[
        ("_RC1a.llvm.ab", "a.llvm.ab"),
        ("_RC1a.x", "a.x"),
        ("_RC1a.", "a."),
    ] {
        assert_prints(symbol, text, text);
    }
}

#[test]
fn damaged_paths_print_themselves() {
    for &text in &[
        "_R",
        "R",
        "__R",
        "_Ra",
        "_RB_",
        "_RC1aC1",
        "_RC1a1b",
        "_RC01a",
        "_RC",
        "_RC3fo",
        "_RNvC1a",
        "_RN_C1a1b",
        "_RIC1a",
        "_RIC1ap",
        "_RCs1a",
        "_RX",
        "_RY",
        "_RJ1a",
        "_RC3foox",
        "_RC1a b",
        "_RC1a.\x7f",
    ] {
        assert_rejected(text, text);
    }
}

#[test]
fn numbers_of_more_than_64_bits_are_rejected() {
    for &text in &[
        "_RCslYGhA16ahye_1a",
        "_RBlYGhA16ahye_",
        "_RC99999999999999999999_a",
        "_RC18446744073709551616a",
        "_RC18446744073709551617a",
    ] {
        assert_rejected(text, text);
    }
}

#[test]
fn punycode_without_a_digit_is_rejected() {
    for text in ["_RCu1_", "_RCu1__", "_RCu2a_", "_RCu0"] {
        assert_rejected(text, text);
    }
}
