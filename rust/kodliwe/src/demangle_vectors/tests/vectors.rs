// Made from crates/demangle_vectors/src/tests/vectors.rt by packaging/crate/erase.py: edit that file instead.
//! The vectors of the Rust crate's tests.
use super::v0_constants::assert_constant;
use super::{assert_prints, assert_rejected};
use crate::demangle_vectors::repeat_between;
use crate::support::alloc::{AllocError, Global};
use crate::support::format;
use crate::support::rt::HostRuntime;
use crate::support::string::String;
use crate::support::test::Fail;
use crate::support::vec::Vec;

/// Legacy symbols, with their texts with the hash and without it.
const LEGACY: &[(&str, &str, &str)] = &[
    ("_ZN4testE", "test", "test"),
    ("_ZN4test1a2bcE", "test::a::bc", "test::a::bc"),
    ("_ZN4$RP$E", ")", ")"),
    ("_ZN8$RF$testE", "&test", "&test"),
    ("_ZN8$BP$test4foobE", "*test::foob", "*test::foob"),
    ("_ZN9$u20$test4foobE", " test::foob", " test::foob"),
    (
        "_ZN35Bar$LT$$u5b$u32$u3b$$u20$4$u5d$$GT$E",
        "Bar<[u32; 4]>",
        "Bar<[u32; 4]>",
    ),
    (
        "_ZN13test$u20$test4foobE",
        "test test::foob",
        "test test::foob",
    ),
    (
        "ZN13test$u20$test4foobE",
        "test test::foob",
        "test test::foob",
    ),
    (
        "_ZN12test$BP$test4foobE",
        "test*test::foob",
        "test*test::foob",
    ),
    ("ZN4testE", "test", "test"),
    ("_ZN13_$LT$test$GT$E", "<test>", "<test>"),
    (
        "__ZN5alloc9allocator6Layout9for_value17h02a996811f781011E",
        "alloc::allocator::Layout::for_value::h02a996811f781011",
        "alloc::allocator::Layout::for_value",
    ),
    ("_ZN3fooE.llvm.9D1C9369", "foo", "foo"),
    (
        "ZN12test$RF$test4foobE",
        "test&test::foob",
        "test&test::foob",
    ),
    (
        "_ZN28_$u7b$$u7b$closure$u7d$$u7d$E",
        "{{closure}}",
        "{{closure}}",
    ),
    (
        "_ZN15__STATIC_FMTSTRE",
        "__STATIC_FMTSTR",
        "__STATIC_FMTSTR",
    ),
    (
        "_ZN71_$LT$Test$u20$$u2b$$u20$$u27$static$u20$as$u20$foo..Bar$LT$Test$GT$$GT$3barE",
        "<Test + 'static as foo::Bar<Test>>::bar",
        "<Test + 'static as foo::Bar<Test>>::bar",
    ),
    ("_ZN3fooE.llvm.9D1C9369@@16", "foo", "foo"),
    ("_ZN3fooE", "foo", "foo"),
    ("_ZN3foo3barE", "foo::bar", "foo::bar"),
    (
        "_ZN11issue_609253foo37Foo$LT$issue_60925..llv$u6d$..Foo$GT$3foo17h059a991a004536adE",
        "issue_60925::foo::Foo<issue_60925::llvm::Foo>::foo::h059a991a004536ad",
        "issue_60925::foo::Foo<issue_60925::llvm::Foo>::foo",
    ),
    (
        "_ZN3foo20h05af221e174051e9abcE",
        "foo::h05af221e174051e9abc",
        "foo",
    ),
    ("_ZN3foo5h05afE", "foo::h05af", "foo"),
    (
        "_ZN17h05af221e174051e93fooE",
        "h05af221e174051e9::foo",
        "h05af221e174051e9::foo",
    ),
    (
        "_ZN3foo16ffaf221e174051e9E",
        "foo::ffaf221e174051e9",
        "foo::ffaf221e174051e9",
    ),
    (
        "_ZN3foo17hg5af221e174051e9E",
        "foo::hg5af221e174051e9",
        "foo::hg5af221e174051e9",
    ),
    (
        "_ZN9backtrace3foo17hbb467fcdaea5d79bE.llvm.A5310EB9",
        "backtrace::foo::hbb467fcdaea5d79b",
        "backtrace::foo",
    ),
];

/// v0 symbols, with their texts with the hash and without it.
const V0: &[(&str, &str, &str)] = &[
    ("_RNvC6_123foo3bar", "123foo::bar", "123foo::bar"),
    ("_RC4f128", "f128", "f128"),
    ("_RC3foo.llvm.9D1C9369", "foo", "foo"),
    ("_RC3foo.llvm.9D1C9369@@16", "foo", "foo"),
    (
        "_RNqCs4fqI2P2rA04_11utf8_identsu30____7hkackfecea1cbdathfdh9hlq6y",
        "utf8_idents[317d481089b8c8fe]::საჭმელად_გემრიელი_სადილი",
        "utf8_idents::საჭმელად_გემრიელი_სადილი",
    ),
    (
        "_RNCNCNgCs6DXkGYLi8lr_2cc5spawn00B5_",
        "cc[4d6468d6c9fd4bb3]::spawn::{closure#0}::{closure#0}",
        "cc::spawn::{closure#0}::{closure#0}",
    ),
    (
        "_RINbNbCskIICzLVDPPb_5alloc5alloc8box_freeDINbNiB4_5boxed5FnBoxuEp6OutputuEL_ECs1iopQbuBiw2_3std",
        "alloc[f15a878b47eb696b]::alloc::box_free::<dyn alloc[f15a878b47eb696b]::boxed::FnBox<(), Output = ()>>",
        "alloc::alloc::box_free::<dyn alloc::boxed::FnBox<(), Output = ()>>",
    ),
    (
        "_RMC0DNtC5krate5Traitp1NKj0_EL_",
        "<dyn krate::Trait<N = 0usize>>",
        "<dyn krate::Trait<N = 0>>",
    ),
    ("_RMC0WmRm1_m9_", "<u32 is 1u32..=9u32>", "<u32 is 1..=9>"),
    (
        "_RMNvCsiksvdpJ6Jnj_14splat_mangling4mainINtB0_4TypeFwThmEEuE",
        "<splat_mangling[d580343ed36ed69b]::main::Type<fn(#[splat] (u8, u32))>>",
        "<splat_mangling::main::Type<fn(#[splat] (u8, u32))>>",
    ),
    (
        "_RMC0INtC8arrayvec8ArrayVechKj7b_E",
        "<arrayvec::ArrayVec<u8, 123usize>>",
        "<arrayvec::ArrayVec<u8, 123>>",
    ),
    (
        "_RNvC9backtrace3foo.llvm.A5310EB9",
        "backtrace::foo",
        "backtrace::foo",
    ),
    (
        "_RNvNtNtNtNtCs92dm3009vxr_4rand4rngs7adapter9reseeding4fork23FORK_HANDLER_REGISTERED.0.0",
        "rand[693ea8e72247470f]::rngs::adapter::reseeding::fork::FORK_HANDLER_REGISTERED.0.0",
        "rand::rngs::adapter::reseeding::fork::FORK_HANDLER_REGISTERED.0.0",
    ),
];

/// Constants, with their texts as the only argument of a path.
const CONSTANTS: &[(&str, &str, &str)] = &[
    ("p", "_", "_"),
    ("hb_", "11u8", "11"),
    ("s98_", "152i16", "152"),
    ("anb_", "-11i8", "-11"),
    ("b0_", "false", "false"),
    ("b1_", "true", "true"),
    ("c76_", "'v'", "'v'"),
    ("c22_", "'\"'", "'\"'"),
    ("ca_", "'\\n'", "'\\n'"),
    ("c2202_", "'∂'", "'∂'"),
    ("e616263_", "{*\"abc\"}", "{*\"abc\"}"),
    ("e27_", "{*\"'\"}", "{*\"'\"}"),
    ("e090a_", "{*\"\\t\\n\"}", "{*\"\\t\\n\"}"),
    ("ee28882c3bc_", "{*\"∂ü\"}", "{*\"∂ü\"}"),
    ("Re616263_", "\"abc\"", "\"abc\""),
    ("Rp", "{&_}", "{&_}"),
    ("Rc58_", "{&'X'}", "{&'X'}"),
    ("RRRh0_", "{&&&0u8}", "{&&&0}"),
    ("RRRe_", "{&&\"\"}", "{&&\"\"}"),
    ("QAE", "{&mut []}", "{&mut []}"),
    ("AE", "{[]}", "{[]}"),
    ("Ah1_h2_h3_E", "{[1u8, 2u8, 3u8]}", "{[1, 2, 3]}"),
    ("TE", "{()}", "{()}"),
    ("Tj0_E", "{(0usize,)}", "{(0,)}"),
    (
        "AAh1_h2_EAh3_h4_EE",
        "{[[1u8, 2u8], [3u8, 4u8]]}",
        "{[[1, 2], [3, 4]]}",
    ),
    ("Th1_b0_E", "{(1u8, false)}", "{(1, false)}"),
    ("j7b_", "123usize", "123"),
    ("Rh7b_", "{&123u8}", "{&123}"),
    ("Rb0_", "{&false}", "{&false}"),
    ("Aj0_E", "{[0usize]}", "{[0]}"),
    (
        "ARe61_Re62_Re63_E",
        "{[\"a\", \"b\", \"c\"]}",
        "{[\"a\", \"b\", \"c\"]}",
    ),
    ("Re27_", "\"'\"", "\"'\""),
    ("Re090a_", "\"\\t\\n\"", "\"\\t\\n\""),
    ("Ree28882c3bc_", "\"∂ü\"", "\"∂ü\""),
    (
        "TRe616263_c78_RAh1_h2_h3_EE",
        "{(\"abc\", 'x', &[1u8, 2u8, 3u8])}",
        "{(\"abc\", 'x', &[1, 2, 3])}",
    ),
    (
        "VNvINtNtC4core6option6OptionjE4NoneU",
        "{core::option::Option::<usize>::None}",
        "{core::option::Option::<usize>::None}",
    ),
    (
        "VNvINtNtC4core6option6OptionjE4SomeTj0_E",
        "{core::option::Option::<usize>::Some(0usize)}",
        "{core::option::Option::<usize>::Some(0)}",
    ),
    (
        "VNtC3foo3BarS1sRe616263_2chc78_5sliceRAh1_h2_h3_EE",
        "{foo::Bar { s: \"abc\", ch: 'x', slice: &[1u8, 2u8, 3u8] }}",
        "{foo::Bar { s: \"abc\", ch: 'x', slice: &[1, 2, 3] }}",
    ),
    (
        "off00ff00ff00ff00ff_",
        "4703991516010230251775u128",
        "4703991516010230251775",
    ),
];

/// Texts that are not symbols.
const REFUSED: &[&str] = &[
    "test",
    "_ZN4test",
    "_ZNfooE",
    "_ZN3fooE.llvm moocow",
    "_RMC0WmORm1_m2_Rm5_m6_",
    "_ZN2222222222222222222222EE",
    "_ZN5*70527e27.ll34csaғE",
    "_ZN5*70527a54.ll34_$b.1E",
    "_ZN5~saäb4e\n2734cOsbE\n5usage20h)3\0\0\0\0\0\0\u{0}7e2734cOsbE",
];

/// Symbols whose texts are long.
const LONG: &[&str] = &[
    "_RMC0TTTTTTpB8_EB7_EB6_EB5_EB4_EB3_E",
    "RYFG_FGyyEvRYFF_EvRYFFEvERLB_B_B_ERLRjB_B_B_",
];

/// Returns all symbols of the Rust crate's tests, and the texts there that are not symbols.
pub fn texts(alloc: Global) -> Result<Vec<String>, AllocError> {
    let mut texts = Vec::new(alloc);
    for (symbol, _, _) in LEGACY.iter().chain(V0) {
        texts.push(String::from_str(alloc, symbol)?)?;
    }
    for (constant, _, _) in CONSTANTS {
        texts.push(format!(in alloc; "_RIC0K{constant}E")?)?;
    }
    for text in LONG.iter().chain(REFUSED) {
        texts.push(String::from_str(alloc, text)?)?;
    }
    for leaf in ["p", "Rp", "C1x"] {
        texts.push(repeat_between(alloc, "_RIC0p", leaf, 1_000, "E")?)?;
    }
    texts.push(repeat_between(
        alloc,
        "RIC20tRYIMYNRYFG05_EB5_B_B6_",
        "R",
        100,
        "B_E",
    )?)?;
    Ok(texts)
}

#[test]
fn symbols_print_their_paths() {
    for (symbol, plain, alt) in LEGACY.iter().chain(V0) {
        assert_prints(symbol, plain, alt);
    }
}

#[test]
fn constants_print_their_values() -> Result<(), Fail> {
    let rt = HostRuntime;
    for (constant, plain, alt) in CONSTANTS {
        assert_constant(rt.alloc(), constant, plain, alt)?;
    }
    Ok(())
}

#[test]
fn rejected_symbols_print_themselves() {
    for text in REFUSED {
        assert_rejected(text, text);
    }
}
