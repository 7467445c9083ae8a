// Made from crates/filter_tests/src/tests/bytes_before.rt by packaging/crate/erase.py: edit that file instead.
//! Tests of runs that stay, and of the bytes before a run, which may be of its candidate.
use super::bytes::assert_filters;
use super::texts::assert_fills;
use crate::rustc_demangle::{BytesFilter, Format, SymbolMemo, demangle_bytes_formatted};
use crate::support::alloc::Global;
use crate::support::rt::HostRuntime;
use crate::support::vec::Vec;
use std::io::ErrorKind;

use crate::support::test::Fail;
use crate::test_doubles::streams::ChunkReader;

/// Runs that begin with `_RC`, which are kept.
const OF_CRATES: [(&[u8], &[u8]); 20] = [
    (b"tag v1.0_RC0 released", b"tag v1.0_RC0 released"),
    (b"SW_RC0.zip", b"SW_RC0.zip"),
    (b"CLK_RC1M", b"CLK_RC1M"),
    (b"firmware_RC2.1.tar.gz", b"firmware_RC2.1.tar.gz"),
    (b"_RC2_40 0_RC4_FLAG", b"_RC2_40 0_RC4_FLAG"),
    (b"int _RC0 = 1;", b"int _RC0 = 1;"),
    (b"_RC0", b"_RC0"),
    (b"_RC", b"_RC"),
    (b"__RC0", b"__RC0"),
    (b" __RC1a", b" __RC1a"),
    (b"___RC1a a__RC1a", b"___RC1a a__RC1a"),
    (b"_RC1a.llvm.9D1C9369", b"_RC1a.llvm.9D1C9369"),
    (b"_RC1a_ZN3fooE _ZN3fooE", b"_RC1a_ZN3fooE foo"),
    (b"_RC1a_RNvC3foo3bar", b"_RC1a_RNvC3foo3bar"),
    (b"__RC1a_ZN3fooE", b"__RC1a_ZN3fooE"),
    (b"\xFF_RC0\xFF__RC0\xFF", b"\xFF_RC0\xFF__RC0\xFF"),
    (b"_RD _RC _Rc _RC1a\n", b"_RD _RC _Rc _RC1a\n"),
    (b"_ZN_RC1a _ZN1CE", b"_ZN_RC1a C"),
    (b"_RXC3foohu _RNvC1a1b", b"_RXC3foohu a::b"),
    (b"_R_RC1a _R.C1a", b"_R_RC1a _R.C1a"),
];

/// Runs of each tag that begins a path, and of other bytes.
const OF_TAGS: [(&[u8], &[u8]); 13] = [
    (b"_RNvC3foo3bar a_RNvC3foo3bar", b"foo::bar afoo::bar"),
    (b"_RMC3foox a_RMC3foox", b"<i64> a<i64>"),
    (b"_RXC0uC1t a_RXC0uC1t", b"<() as t> a<() as t>"),
    (
        b"_RYsC5h05af a_RYsC5h05af",
        b"<i16 as h05af> a<i16 as h05af>",
    ),
    (b"__RMC3foox (__RXC0uC1t", b"<i64> (<() as t>"),
    (b"__RYsC5h05af\n__RNvC1a1b", b"<i16 as h05af>\na::b"),
    (b"_RB_ __RB_", b"_RB_ __RB_"),
    (b"_RAC1a _RZvC1a _RvNC1a", b"_RAC1a _RZvC1a _RvNC1a"),
    (
        b"config_Release CONFIG_RELEASE __Rest",
        b"config_Release CONFIG_RELEASE __Rest",
    ),
    (
        b"_Rs_3foo _R0 __R1a _R$ _R. _R_",
        b"_Rs_3foo _R0 __R1a _R$ _R. _R_",
    ),
    (b"_R.llvm.A __R.llvm.A", b"_R.llvm.A __R.llvm.A"),
    (b"a_Rest_RNvC3foo3bar", b"a_Rest_RNvC3foo3bar"),
    (b"_Rest,_RNvC3foo3bar", b"_Rest,foo::bar"),
];

/// Runs after each kind of byte.
const AFTER_BYTES: [(&[u8], &[u8]); 28] = [
    (b"0_ZN3fooE", b"0foo"),
    (b"9_ZN3fooE", b"9foo"),
    (b"A_ZN3fooE", b"Afoo"),
    (b"Z_ZN3fooE", b"Zfoo"),
    (b"a_ZN3fooE", b"afoo"),
    (b"z_ZN3fooE", b"zfoo"),
    (
        b"{\"at\":\"a\\n_RNvC3foo3bar\\n\"}",
        b"{\"at\":\"a\\nfoo::bar\\n\"}",
    ),
    (b"\"a\\r\\n_RNvC3foo3bar\"", b"\"a\\r\\nfoo::bar\""),
    (b"\\t_ZN3fooE %20_ZN3fooE", b"\\tfoo %20foo"),
    (b"?q=a%20_RNvC3foo3bar&b", b"?q=a%20foo::bar&b"),
    (b"\x1B[31m_RNvC3foo3bar\x1B[0m", b"\x1B[31mfoo::bar\x1B[0m"),
    // As grep writes it with --color.
    (
        b"T \x1B[01;31m\x1B[K_RNvC3foo3bar\x1B[m\x1B[K",
        b"T \x1B[01;31m\x1B[Kfoo::bar\x1B[m\x1B[K",
    ),
    // As strace and Python quote it.
    (
        b"write(1, \"x\\n_RNvC3foo3bar\\t_ZN3foo\"..., 40) = 40",
        b"write(1, \"x\\nfoo::bar\\t_ZN3foo\"..., 40) = 40",
    ),
    (
        b"b'\\x00_RNvC3foo3bar\\xff_ZN3fooE'",
        b"b'\\x00foo::bar\\xfffoo'",
    ),
    (b"L_ZN3fooE .L_RNvC3foo3bar", b"Lfoo .Lfoo::bar"),
    (b"a_ZN_ZN3fooE", b"a_ZN_ZN3fooE"),
    (b"a_R._ZN3fooE _RNvC1a1b", b"a_R._ZN3fooE a::b"),
    (b"__Z_ZN3fooE", b"__Zfoo"),
    (b".text._ZN3fooE", b".text.foo"),
    (b"GCC_except_table1._ZN3fooE", b"GCC_except_table1.foo"),
    (b"__imp__ZN3fooE", b"__imp_foo"),
    (b"$_ZN3fooE", b"$foo"),
    (b"/_ZN3fooE", b"/foo"),
    (b":_ZN3fooE", b":foo"),
    (b"@_ZN3fooE[_ZN1aE`_ZN1aE{_ZN1aE", b"@foo[a`a{a"),
    (b"\0_ZN3fooE", b"\0foo"),
    (b"\xC3\xA9_ZN3fooE", b"\xC3\xA9foo"),
    (b"\x7F_ZN3fooE\x80_ZN3fooE", b"\x7Ffoo\x80foo"),
];

/// A run after one `_`, which macOS writes, and after other `_`.
const AFTER_UNDERSCORES: [(&[u8], &[u8]); 25] = [
    (b"__ZN3foo3barE", b"foo::bar"),
    (b" __RNvC3foo3bar", b" foo::bar"),
    (b"\n__RNvC3foo3bar\n", b"\nfoo::bar\n"),
    (b"(__ZN1aE),__ZN1aE;\xFF__ZN1aE", b"(a),a;\xFFa"),
    (b"__ZN3fooE.llvm.9D1C9369@@16", b"foo@@16"),
    (b"__ZN3fooE.a~", b"foo.a~"),
    (b"___ZN3fooE", b"__foo"),
    (b"____ZN3fooE", b"___foo"),
    (b"a__ZN3fooE", b"a_foo"),
    (b"1__ZN1aE", b"1_a"),
    (b".text.__ZN3fooE", b".text._foo"),
    (b"$__ZN3fooE", b"$_foo"),
    (b"__imp___ZN3fooE", b"__imp__foo"),
    (b"__Rest", b"__Rest"),
    (b"__ZN3fooEx __ZN", b"__ZN3fooEx __ZN"),
    (b"__R_ZN3fooE", b"__R_ZN3fooE"),
    (b"__ZN_ZN3fooE", b"__ZN_ZN3fooE"),
    (b"_ _ZN1aE", b"_ a"),
    (b"_ __ZN1aE", b"_ a"),
    (b"_\n__ZN1aE", b"_\na"),
    (b"_", b"_"),
    (b"x __", b"x __"),
    (b"x __Z", b"x __Z"),
    (b"__R", b"__R"),
    (b"__Z_", b"__Z_"),
];

/// Asserts the output for bytes in each two parts.
fn assert_filters_parts(
    alloc: Global,
    text: &[u8],
    format: Format,
    wanted: &[u8],
) -> Result<(), Fail> {
    for cut in 0..=text.len() {
        let (first, second) = text.split_at(cut);
        let parts = [first, second];
        let parts = if cut == 0 { &parts[1..] } else { &parts[..] };
        let mut input = ChunkReader::new(parts, usize::MAX, ErrorKind::Other);
        let mut output = Vec::new(alloc);
        let result = demangle_bytes_formatted(alloc, &mut input, &mut output, format);
        assert!(result.is_ok(), "of {text:?} at {cut}");
        assert_eq!(output.as_slice(), wanted, "of {text:?} at {cut}");
    }
    Ok(())
}

#[test]
fn bytes_before_a_run_in_chunks_of_each_size() -> Result<(), Fail> {
    let rt = HostRuntime;
    let kept = OF_CRATES.iter().chain(OF_TAGS.iter());
    let after = AFTER_BYTES.iter().chain(AFTER_UNDERSCORES.iter());
    for (text, wanted) in kept.chain(after) {
        for size in 1..=text.len() {
            assert_filters(rt.alloc(), text, size, true, wanted)?;
            assert_filters(rt.alloc(), text, size, false, wanted)?;
        }
    }
    Ok(())
}

#[test]
fn bytes_before_a_run_at_each_cut() -> Result<(), Fail> {
    let rt = HostRuntime;
    let kept = OF_CRATES.iter().chain(OF_TAGS.iter());
    let after = AFTER_BYTES.iter().chain(AFTER_UNDERSCORES.iter());
    for (text, wanted) in kept.chain(after) {
        for format in [Format::unfolded(true, 1_000), Format::folded(false, 1_000)] {
            assert_filters_parts(rt.alloc(), text, format, wanted)?;
        }
    }
    Ok(())
}

#[test]
fn bytes_before_a_run_in_memory() {
    let kept = OF_CRATES.iter().chain(OF_TAGS.iter());
    let after = AFTER_BYTES.iter().chain(AFTER_UNDERSCORES.iter());
    for (text, wanted) in kept.chain(after) {
        assert_fills(text, wanted);
    }
    assert_fills(b"_RIC1aeE (__RIC1aeE", b"a::<str> (a::<str>");
}

/// A symbol that a memo remembers, with what macOS writes before it and without.
const REPEATED: &[u8] =
    b"__RINvNtC3foo3bar4quuxhE _RINvNtC3foo3bar4quuxhE a_RINvNtC3foo3bar4quuxhE \
    .__RINvNtC3foo3bar4quuxhE\n";

#[test]
fn a_memo_knows_what_is_before_a_run() -> Result<(), Fail> {
    let rt = HostRuntime;
    let alloc = rt.alloc();
    let plain = b"foo::bar::quux::<u8> foo::bar::quux::<u8> afoo::bar::quux::<u8> \
        ._foo::bar::quux::<u8>\n"
        .as_slice();
    let folded = b"foo::bar::quux::<_> foo::bar::quux::<_> afoo::bar::quux::<_> \
        ._foo::bar::quux::<_>\n"
        .as_slice();
    for &(format, wanted) in &[
        (Format::unfolded(true, 1_000), plain),
        (Format::folded(true, 1_000), folded),
    ] {
        let mut text = Vec::new(alloc);
        let mut output = Vec::new(alloc);
        let mut wanted_output = Vec::new(alloc);
        for _ in 0..4 {
            text.extend_from_slice(REPEATED)?;
            wanted_output.extend_from_slice(wanted)?;
        }
        let result = demangle_bytes_formatted(alloc, &mut text.as_slice(), &mut output, format);
        assert!(result.is_ok());
        assert_eq!(output.as_slice(), wanted_output.as_slice());
    }
    Ok(())
}

#[test]
fn a_line_feed_ends_what_is_pending() -> Result<(), Fail> {
    let rt = HostRuntime;
    let alloc = rt.alloc();
    let lines: [(&[u8], &[u8]); 5] = [
        (b"x _\n", b"x _\n"),
        (b"__\n", b"__\n"),
        (b"x __Z\n", b"x __Z\n"),
        (b"a __ZN1aE\n", b"a a\n"),
        (b"a_RC1a\n", b"a_RC1a\n"),
    ];
    let mut filter = BytesFilter::new(alloc);
    let mut memo = SymbolMemo::new(alloc, true, 1_000);
    for (line, wanted) in lines {
        let parts = [line];
        // The reader fails after the line, as one that waits for more.
        let mut input = ChunkReader::new(&parts, 8, ErrorKind::Interrupted);
        let mut output = Vec::new(alloc);
        for _ in 0..8 {
            if output.as_slice() == wanted {
                break;
            }
            assert!(matches!(
                filter.step(&mut input, &mut output, &mut memo),
                Ok(true)
            ));
        }
        assert_eq!(output.as_slice(), wanted, "of {line:?}");
    }
    Ok(())
}
