// Made from crates/call_tests/src/tests/refused.rt by packaging/crate/erase.py: edit that file instead.
//! Tests of texts that are not symbols.
use super::assert_rejected;
use crate::demangle_vectors::printed_is;

#[test]
fn texts_that_no_grammar_spells_print_themselves() {
    for &text in &[
        "",
        "é",
        "\0",
        "N1aE",
        "_zn1aE",
        "___ZN1aE",
        "_ZN",
        "_R",
        "R",
        "_ZN6$u000$",
        "_ZN8$ud800$E",
    ] {
        assert_rejected(text, text);
    }
}

#[test]
fn symbols_with_a_suffix_that_is_not_allowed_print_themselves() {
    for &text in &[
        "_ZN3fooE.a b",
        "_ZN3fooEx",
        "_ZN3fooE\n",
        "_ZN3fooE.\0",
        "_ZN3fooE.é",
        "_ZN1aE.llvm.é",
        "_ZN1a1bE.llvm.A B",
        "_ZN3fooE.a\u{7f}",
        "_RC3foo.a b",
        "_RC3foo.a\u{7f}",
        "_RC3foo.ü",
    ] {
        assert_rejected(text, text);
    }
}

#[test]
fn a_thin_lto_suffix_is_stripped_off_any_text() {
    for &(text, printed) in &[
        ("foo.llvm.AB", "foo"),
        ("foo.llvm.", "foo"),
        (".llvm.", ""),
        ("_ZNfooE.llvm.AB", "_ZNfooE"),
        ("a.llvm.A.llvm.G", "a.llvm.A.llvm.G"),
        ("foo.llvm.AG", "foo.llvm.AG"),
    ] {
        assert_rejected(text, printed);
    }
}

#[test]
fn printed_is_says_no() {
    assert!(!printed_is("_ZN3foo17h05af221e174051e9E", true, "foo"));
    assert!(!printed_is("_ZN3fooE", true, "fo"));
    assert!(!printed_is("_ZN3fooE", true, "fooo"));
}
