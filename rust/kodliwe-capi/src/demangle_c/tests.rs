// Made from crates/demangle_c/src/tests.rt by packaging/crate/erase.py: edit that file instead.
//! Tests of the calls, for each kind of result and of size. The texts are those of the Rust crate.
use crate::demangle_c::{
    kodliwe_demangle, kodliwe_demangle_folded, kodliwe_demangle_limited, kodliwe_demangle_part,
    kodliwe_demangle_text, kodliwe_demangle_text_folded, kodliwe_is_symbol, kodliwe_path_len,
    kodliwe_print_part, kodliwe_symbol_len, kodliwe_version,
};

/// A symbol whose text doubles with each of 18 tuples, and so exceeds every limit.
const TREE: &[u8; 96] =
    b"_RMC0TTTTTTTTTTTTTTTTTTpBk_EBj_EBi_EBh_EBg_EBf_EBe_EBd_EBc_EBb_EBa_EB9_EB8_EB7_EB6_EB5_EB4_EB3_E";

#[test]
fn a_path_and_its_nul_are_written() {
    let mut out = [9; 40];
    let want = kodliwe_demangle(b"_ZN3foo17h05af221e174051e9E", &mut out, true);
    assert_eq!(want, 23);
    assert!(out.starts_with(b"foo::h05af221e174051e9\0\x09\x09"));
}

#[test]
fn the_hash_is_left_out() {
    let mut out = [9; 40];
    let want = kodliwe_demangle(b"_ZN3foo17h05af221e174051e9E", &mut out, false);
    assert_eq!(want, 4);
    assert!(out.starts_with(b"foo\0\x09\x09"));
}

#[test]
fn arguments_are_folded() {
    let mut out = [9; 40];
    let symbol = b"_RNvMC3fooINtB2_3BarlE3baz";
    assert_eq!(kodliwe_demangle_folded(symbol, &mut out, false, 1_000), 19);
    assert!(out.starts_with(b"<foo::Bar<_>>::baz\0\x09\x09"));
    assert_eq!(kodliwe_demangle_folded(b"main", &mut out, false, 1_000), 0);
    let mut cut = [9; 40];
    assert_eq!(kodliwe_demangle_folded(symbol, &mut cut, true, 1), 22);
    assert!(cut.starts_with(b"<{size limit reached}\0\x09"));
}

#[test]
fn arguments_in_a_text_are_folded() {
    let mut out = [9; 40];
    let text = b"\xFF _RNvMC3fooINtB2_3BarlE3baz!";
    assert_eq!(
        kodliwe_demangle_text_folded(text, &mut out, false, 1_000),
        22
    );
    assert!(out.starts_with(b"\xFF <foo::Bar<_>>::baz!\0\x09\x09"));
}

#[test]
fn a_thin_lto_suffix_is_left_out() {
    let mut out = [9; 40];
    assert_eq!(
        kodliwe_demangle(b"_RNvC3foo3bar.llvm.0AB@1", &mut out, true),
        9
    );
    assert!(out.starts_with(b"foo::bar\0\x09"));
}

#[test]
fn an_exact_fit_is_whole() {
    let mut out = [9; 10];
    assert_eq!(kodliwe_demangle(b"_RNvC3foo3bar", &mut out[..9], false), 9);
    assert!(out == *b"foo::bar\0\x09");
}

#[test]
fn one_byte_less_loses_the_last() {
    let mut out = [9; 10];
    assert_eq!(kodliwe_demangle(b"_RNvC3foo3bar", &mut out[..8], false), 9);
    assert!(out == *b"foo::ba\0\x09\x09");
}

#[test]
fn one_byte_holds_the_nul() {
    let mut out = [9; 4];
    assert_eq!(kodliwe_demangle(b"_RNvC3foo3bar", &mut out[..1], false), 9);
    assert!(out == *b"\0\x09\x09\x09");
}

#[test]
fn no_byte_is_counted_alone() {
    let mut out = [9; 4];
    assert_eq!(kodliwe_demangle(b"_RNvC3foo3bar", &mut out[..0], false), 9);
    assert_eq!(
        kodliwe_demangle_limited(b"_RNvC3foo3bar", &mut out[..0], false, 4),
        24
    );
    assert!(out == [9; 4]);
}

#[test]
fn no_symbol_leaves_the_memory() {
    let mut out = [9; 4];
    assert_eq!(kodliwe_demangle(b"main", &mut out, true), 0);
    assert_eq!(kodliwe_demangle(b"", &mut out, true), 0);
    assert_eq!(kodliwe_demangle(b"_ZN\xFF", &mut out, true), 0);
    assert_eq!(kodliwe_demangle_limited(b"_ZN3foo", &mut out, true, 100), 0);
    assert!(out == [9; 4]);
}

#[test]
fn a_length_past_every_number_is_no_symbol() {
    let mut out = [9; 4];
    let legacy = b"_ZN1000000000000000000000000000000fooE";
    assert_eq!(kodliwe_demangle(legacy, &mut out, true), 0);
    let v0 = b"_RNvC1000000000000000000000000000000a3foo";
    assert_eq!(kodliwe_demangle(v0, &mut out, true), 0);
    assert!(out == [9; 4]);
}

#[test]
fn a_limit_cuts_before_the_suffix() {
    let mut out = [9; 40];
    let want = kodliwe_demangle_limited(b"_ZN3foo3barE.cold.7", &mut out, false, 4);
    assert_eq!(want, 31);
    assert!(out.starts_with(b"foo{size limit reached}.cold.7\0\x09"));
}

#[test]
fn a_limit_that_suffices_cuts_nothing() {
    let mut out = [9; 40];
    let want = kodliwe_demangle_limited(b"_ZN3foo3barE.cold.7", &mut out, false, 8);
    assert_eq!(want, 16);
    assert!(out.starts_with(b"foo::bar.cold.7\0\x09"));
}

#[test]
fn a_tree_ends_at_the_limit() {
    let mut out = [9; 8];
    assert_eq!(kodliwe_demangle_limited(TREE, &mut out, true, 1000), 1021);
    assert!(out == *b"<((((((\0");
}

#[test]
fn no_limit_is_above_1_000_000() {
    let mut out = [9; 8];
    assert_eq!(
        kodliwe_demangle_limited(TREE, &mut out, true, 999_990),
        1_000_011
    );
    assert_eq!(
        kodliwe_demangle_limited(TREE, &mut out, true, 1_000_001),
        1_000_020
    );
    assert_eq!(
        kodliwe_demangle_limited(TREE, &mut out, true, usize::MAX),
        1_000_020
    );
    assert_eq!(kodliwe_demangle(TREE, &mut out, true), 1_000_020);
}

#[test]
fn is_symbol_finds_a_symbol() {
    assert!(kodliwe_is_symbol(b"_ZN3foo17h05af221e174051e9E"));
    assert!(kodliwe_is_symbol(b"_RNvC3foo3bar.llvm.0AB@1"));
    assert!(!kodliwe_is_symbol(b"_ZN3foo17h05af221e174051e9"));
    assert!(!kodliwe_is_symbol(b"_ZN\xFF"));
    assert!(!kodliwe_is_symbol(b""));
}

#[test]
fn parts_join_to_the_path() {
    let symbol = b"_ZN3foo3barE.cold.7";
    let mut part = [9; 8];
    assert_eq!(kodliwe_demangle_part(symbol, &mut part, false, 1000, 0), 16);
    assert!(part == *b"foo::ba\0");
    assert_eq!(kodliwe_demangle_part(symbol, &mut part, false, 1000, 7), 16);
    assert!(part == *b"r.cold.\0");
    assert_eq!(
        kodliwe_demangle_part(symbol, &mut part, false, 1000, 14),
        16
    );
    assert!(part == *b"7\0cold.\0");
}

#[test]
fn a_part_past_the_end_is_empty() {
    let mut part = [9; 4];
    assert_eq!(
        kodliwe_demangle_part(b"_RNvC3foo3bar", &mut part, false, 1000, 8),
        9
    );
    assert!(part == *b"\0\x09\x09\x09");
    part[0] = 9;
    assert_eq!(
        kodliwe_demangle_part(b"_RNvC3foo3bar", &mut part, false, 1000, usize::MAX),
        9
    );
    assert!(part == *b"\0\x09\x09\x09");
}

#[test]
fn a_part_is_cut_at_the_limit() {
    let mut part = [9; 40];
    let symbol = b"_ZN3foo3barE.cold.7";
    assert_eq!(kodliwe_demangle_part(symbol, &mut part, false, 4, 3), 31);
    assert!(part.starts_with(b"{size limit reached}.cold.7\0\x09"));
    assert_eq!(
        kodliwe_demangle_part(TREE, &mut part, true, usize::MAX, 1_000_000),
        1_000_020
    );
    assert!(part.starts_with(b"size limit reached}\0"));
}

#[test]
fn no_symbol_has_no_part() {
    let mut out = [9; 4];
    assert_eq!(kodliwe_demangle_part(b"main", &mut out, true, 1000, 0), 0);
    assert_eq!(
        kodliwe_demangle_part(b"_RNvC3foo3bar", &mut out[..0], true, 1000, 2),
        9
    );
    assert!(out == [9; 4]);
}

#[test]
fn a_symbol_ends_before_thin_lto() {
    assert_eq!(kodliwe_symbol_len(b"_ZN3foo17h05af221e174051e9E"), 27);
    assert_eq!(kodliwe_symbol_len(b"_RNvC3foo3bar.llvm.0AB@1"), 13);
    assert_eq!(kodliwe_symbol_len(b"_ZN3foo3barE.cold.7"), 19);
    assert_eq!(kodliwe_symbol_len(b"_ZN3foo3barE.cold.7.llvm.9"), 19);
    assert_eq!(kodliwe_symbol_len(b"_ZN3fooE.llvm.Z"), 15);
    assert_eq!(kodliwe_symbol_len(b"main"), 0);
    assert_eq!(kodliwe_symbol_len(b"_ZN\xFF"), 0);
    assert_eq!(kodliwe_symbol_len(b""), 0);
}

#[test]
fn a_text_keeps_all_but_its_symbols() {
    let mut out = [9; 40];
    let text = b"\xFF at _ZN3foo17h05af221e174051e9E: _RNvC3foo3bar\n";
    assert_eq!(kodliwe_demangle_text(text, &mut out, false, 1000), 20);
    assert!(out.starts_with(b"\xFF at foo: foo::bar\n\0\x09"));
}

#[test]
fn the_bytes_before_a_symbol_of_a_text() {
    let mut out = [9; 40];
    let text = b"SW_RC0.zip .text._ZN3fooE __ZN3fooE a__ZN1aE";
    assert_eq!(kodliwe_demangle_text(text, &mut out, false, 1000), 29);
    assert!(out.starts_with(b"SW_RC0.zip .text.foo foo a_a\0\x09"));
    assert_eq!(
        kodliwe_demangle_text_folded(text, &mut out, false, 1000),
        29
    );
    assert!(out.starts_with(b"SW_RC0.zip .text.foo foo a_a\0\x09"));
}

#[test]
fn runs_of_a_text_that_stay_and_runs_after_each_byte() {
    let rows: &[(&[u8], &[u8])] = &[
        (b"int _RC0 = 1; v1.0_RC0", b"int _RC0 = 1; v1.0_RC0"),
        (b"_RC2_40 __RC0 x__RC0", b"_RC2_40 __RC0 x__RC0"),
        (b"config_Release __REG", b"config_Release __REG"),
        (b"\"a\\n_RNvC3foo3bar\"", b"\"a\\nfoo::bar\""),
        (b"\\t_ZN3fooE\\r\\n_ZN3fooE", b"\\tfoo\\r\\nfoo"),
        (
            b"\x1B[01;31m\x1B[K_ZN3fooE\x1B[m",
            b"\x1B[01;31m\x1B[Kfoo\x1B[m",
        ),
        (b"b'\\x00_RNvC3foo3bar\\xff'", b"b'\\x00foo::bar\\xff'"),
        (b"%20_RNvC3foo3bar", b"%20foo::bar"),
        (b"L_ZN3fooE .L_RNvC3foo3bar", b"Lfoo .Lfoo::bar"),
        (b"_RMC3foox a_RXC0uC1t", b"<i64> a<() as t>"),
        (b"_RYsC5h05af __RMC3foox", b"<i16 as h05af> <i64>"),
    ];
    for &(text, wanted) in rows {
        let mut out = [9; 40];
        let size = wanted.len().saturating_add(1);
        assert_eq!(kodliwe_demangle_text(text, &mut out, false, 1000), size);
        assert!(out.starts_with(wanted), "of {text:?}");
        assert_eq!(out.get(wanted.len()), Some(&0), "of {text:?}");
        let mut out = [9; 40];
        assert_eq!(
            kodliwe_demangle_text_folded(text, &mut out, true, 1000),
            size
        );
        assert!(out.starts_with(wanted), "of {text:?}");
        assert_eq!(out.get(wanted.len()), Some(&0), "of {text:?}");
    }
}

#[test]
fn a_text_is_cut_where_the_memory_ends() {
    let mut out = [9; 8];
    assert_eq!(
        kodliwe_demangle_text(b"<_RNvC3foo3bar>", &mut out[..7], false, 1000),
        11
    );
    assert!(out == *b"<foo::\0\x09");
    assert_eq!(
        kodliwe_demangle_text(b"<_RNvC3foo3bar>", &mut out[..0], false, 1000),
        11
    );
    assert!(out == *b"<foo::\0\x09");
}

#[test]
fn the_limit_of_a_text_is_each_symbols() {
    let mut out = [9; 40];
    assert_eq!(
        kodliwe_demangle_text(b"_ZN3foo3barE _ZN1aE", &mut out, false, 4),
        26
    );
    assert!(out.starts_with(b"foo{size limit reached} a\0\x09"));
}

#[test]
fn a_text_without_a_limit_has_1_000_bytes_for_each() {
    let text = b"_RMC0FG15FTGf_Eu";
    let mut out = [9; 1];
    let most = 1_000 * text.len() + 1;
    let linear = kodliwe_demangle_text(text, &mut out, false, usize::MAX);
    assert!(linear <= most);
    let folded = kodliwe_demangle_text_folded(text, &mut out, false, usize::MAX);
    assert!(folded <= most);
    assert!(kodliwe_demangle_text(text, &mut out, false, 1_000_000) > most);
}

#[test]
fn an_empty_text_is_a_nul() {
    let mut out = [9; 2];
    assert_eq!(kodliwe_demangle_text(b"", &mut out, true, 1000), 1);
    assert!(out == *b"\0\x09");
}

#[test]
fn a_path_ends_before_its_suffix() {
    assert_eq!(kodliwe_path_len(b"_ZN3foo17h05af221e174051e9E"), 27);
    assert_eq!(kodliwe_path_len(b"_RNvC3foo3bar.cold.7.llvm.9"), 13);
    assert_eq!(kodliwe_path_len(b"_ZN3foo3barE.llvm.Z"), 12);
    assert_eq!(kodliwe_path_len(b"main"), 0);
    assert_eq!(kodliwe_path_len(b"_ZN\xFF"), 0);
}

#[test]
fn a_known_path_is_printed_in_parts() {
    let symbol = b"_RNvC3foo3bar.cold.7.llvm.9";
    let mut part = [9; 8];
    assert_eq!(
        kodliwe_print_part(symbol, 13, &mut part, false, 1000, 0),
        16
    );
    assert!(part == *b"foo::ba\0");
    assert_eq!(
        kodliwe_print_part(symbol, 13, &mut part, false, 1000, 7),
        16
    );
    assert!(part == *b"r.cold.\0");
    let legacy = b"_ZN3foo17h05af221e174051e9E";
    assert_eq!(kodliwe_print_part(legacy, 27, &mut part, false, 1000, 0), 4);
    assert!(part.starts_with(b"foo\0"));
}

#[test]
fn another_length_does_no_harm() {
    let mut part = [9; 12];
    let symbol = b"_RNvC3foo3bar.a";
    for path_len in [0, 1, 14, 15, 16, usize::MAX] {
        let want = kodliwe_print_part(symbol, path_len, &mut part[..10], false, 1000, 0);
        assert!(want >= 9);
        assert!(want <= 1036);
    }
    assert_eq!(
        kodliwe_print_part(b"_RNv\xFF", 4, &mut part[..10], false, 1000, 0),
        0
    );
    assert_eq!(
        kodliwe_print_part(b"_RNvC3fo", 8, &mut part[..10], true, 4, 0),
        21
    );
    assert!(part[10..] == [9; 2]);
}

#[test]
fn a_version_is_a_text() {
    let mut out = [9; 60];
    let want = kodliwe_version(&mut out);
    assert!(out.starts_with(b"kodliwe 0.1.0, "));
    assert!(out[want - 1] == 0 && out[want] == 9);
    let mut cut = [9; 9];
    assert_eq!(kodliwe_version(&mut cut[..8]), want);
    assert!(cut == *b"kodliwe\0\x09");
    assert_eq!(kodliwe_version(&mut cut[..0]), want);
    assert!(cut == *b"kodliwe\0\x09");
}
