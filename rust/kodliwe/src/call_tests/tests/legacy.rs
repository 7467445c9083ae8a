// Made from crates/call_tests/src/tests/legacy.rt by packaging/crate/erase.py: edit that file instead.
//! Tests of legacy symbols.
use super::assert_prints;

#[test]
fn paths_print_their_elements() {
    for &(symbol, path) in &[
        ("_ZN003fooE", "foo"),
        ("_ZNE", ""),
        ("_ZN3foo0E", "foo::"),
        ("_ZN1HE", "H"),
    ] {
        assert_prints(symbol, path, path);
    }
}

#[test]
fn escapes_give_their_characters() {
    for &(symbol, path) in &[
        ("_ZN14$u00000000041$E", "A"),
        ("_ZN4_$C$E", ","),
        ("_ZN6__$C$aE", "__,a"),
        ("_ZN5a...bE", "a::.b"),
        ("_ZN4$SP$E", "@"),
        ("_ZN5$ua0$E", "\u{a0}"),
    ] {
        assert_prints(symbol, path, path);
    }
}

#[test]
fn unknown_escapes_leave_the_rest_as_it_is() {
    for &(symbol, path) in &[
        ("_ZN10a$XX$b..cdE", "a$XX$b..cd"),
        ("_ZN5a$u7$E", "a$u7$"),
        ("_ZN2$$E", "$$"),
        ("_ZN5$u7f$E", "$u7f$"),
        ("_ZN5$u80$E", "$u80$"),
        ("_ZN5$u9f$E", "$u9f$"),
        ("_ZN3$u$E", "$u$"),
        ("_ZN5$u4A$E", "$u4A$"),
        ("_ZN5$u4G$E", "$u4G$"),
    ] {
        assert_prints(symbol, path, path);
    }
}

#[test]
fn a_last_hash_is_printed_in_the_plain_form_alone() {
    for &(symbol, plain, alt) in &[
        (
            "_ZN3foo17h05af221e174051e9E",
            "foo::h05af221e174051e9",
            "foo",
        ),
        ("_ZN3foo4headE", "foo::head", "foo"),
        ("_ZN3foo3hABE.x", "foo::hAB.x", "foo.x"),
        ("_ZN1hE", "h", ""),
    ] {
        assert_prints(symbol, plain, alt);
    }
}

#[test]
fn suffixes_follow_the_path() {
    for &(symbol, plain, alt) in &[
        ("_ZN3fooE.x", "foo.x", "foo.x"),
        ("_ZNE.", ".", "."),
        ("_ZN3fooE.!a~", "foo.!a~", "foo.!a~"),
        ("_ZN3fooE.llvm.AG", "foo.llvm.AG", "foo.llvm.AG"),
        (
            "_ZN3fooE.llvm.x.llvm.AB",
            "foo.llvm.x.llvm.AB",
            "foo.llvm.x.llvm.AB",
        ),
        ("_ZN1aE.llvm.a", "a.llvm.a", "a.llvm.a"),
        ("_ZNE.llvm.", "", ""),
    ] {
        assert_prints(symbol, plain, alt);
    }
}
