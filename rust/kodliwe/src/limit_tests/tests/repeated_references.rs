// Made from crates/limit_tests/src/tests/repeated_references.rt by packaging/crate/erase.py: edit that file instead.
//! Tests of references that lead to one target many times. A sink that holds its text gets the same
//! as one that does not.
use super::assert_prints;
use crate::demangle_vectors::repeat_between;
use crate::rustc_demangle::sink::{ArraySink, SliceSink};
use crate::rustc_demangle::{Form, Format, RereadLimit, SizeLimit, demangle, demangle_slice};
use crate::support::format;
use crate::support::rt::HostRuntime;

use crate::support::test::Fail;

/// Symbols with references to paths, to generic types and to closures.
const PATHS: [(&str, &str, &str); 7] = [
    (
        "_RINvNtC1a1b1fB2_B2_B2_B2_B2_NtB2_1cNtB2_1dNtB2_1eE",
        "a::b::f::<a::b, a::b, a::b, a::b, a::b, a::b::c, a::b::d, a::b::e>",
        "a::b::f::<a::b, a::b, a::b, a::b, a::b, a::b::c, a::b::d, a::b::e>",
    ),
    (
        "_RINvNtCs1_5crate3mod1fNtB4_1aNtB4_1aNtB4_1aNtB4_1aNtNtB4_1a1bB4_E",
        "crate[3]::mod::f::<crate[3]::a, crate[3]::a, crate[3]::a, crate[3]::a, crate[3]::a::b, crate[3]>",
        "crate::mod::f::<crate::a, crate::a, crate::a, crate::a, crate::a::b, crate>",
    ),
    (
        "_RINvC1a1fINtC3std3VecINtC4core6OptionhRNtC1a1xEEB7_B7_Bj_Bj_Bj_BA_BA_NtB7_1yTB7_Bj_BA_B7_EE",
        "a::f::<std::Vec<core::Option<u8, &a::x>>, std::Vec<core::Option<u8, &a::x>>, std::Vec<core::Option<u8, &a::x>>, core::Option<u8, &a::x>, core::Option<u8, &a::x>, core::Option<u8, &a::x>, &a::x, &a::x, std::Vec<core::Option<u8, &a::x>>::y, (std::Vec<core::Option<u8, &a::x>>, core::Option<u8, &a::x>, &a::x, std::Vec<core::Option<u8, &a::x>>)>",
        "a::f::<std::Vec<core::Option<u8, &a::x>>, std::Vec<core::Option<u8, &a::x>>, std::Vec<core::Option<u8, &a::x>>, core::Option<u8, &a::x>, core::Option<u8, &a::x>, core::Option<u8, &a::x>, &a::x, &a::x, std::Vec<core::Option<u8, &a::x>>::y, (std::Vec<core::Option<u8, &a::x>>, core::Option<u8, &a::x>, &a::x, std::Vec<core::Option<u8, &a::x>>)>",
    ),
    (
        "_RMC0TTTTThEB6_EB5_EB4_EB3_B4_B5_B6_E",
        "<(((((u8,), (u8,)), ((u8,), (u8,))), (((u8,), (u8,)), ((u8,), (u8,)))), ((((u8,), (u8,)), ((u8,), (u8,))), (((u8,), (u8,)), ((u8,), (u8,)))), (((u8,), (u8,)), ((u8,), (u8,))), ((u8,), (u8,)), (u8,))>",
        "<(((((u8,), (u8,)), ((u8,), (u8,))), (((u8,), (u8,)), ((u8,), (u8,)))), ((((u8,), (u8,)), ((u8,), (u8,))), (((u8,), (u8,)), ((u8,), (u8,)))), (((u8,), (u8,)), ((u8,), (u8,))), ((u8,), (u8,)), (u8,))>",
    ),
    (
        "_RINvXs_NtC1a1mINtNtB5_1s1SNtB5_1xENtB5_1y1fBc_Bc_Bc_B5_B5_Bc_E",
        "<a::m::s::S<a::m::x> as a::m::y>::f::<a::m::s::S<a::m::x>, a::m::s::S<a::m::x>, a::m::s::S<a::m::x>, a::m, a::m, a::m::s::S<a::m::x>>",
        "<a::m::s::S<a::m::x> as a::m::y>::f::<a::m::s::S<a::m::x>, a::m::s::S<a::m::x>, a::m::s::S<a::m::x>, a::m, a::m, a::m::s::S<a::m::x>>",
    ),
    (
        "_RINvC1a1fNCNvC1a1f0B7_B7_B7_B7_NCNvB7_1gs_0B7_NCB7_0E",
        "a::f::<a::f::{closure#0}, a::f::{closure#0}, a::f::{closure#0}, a::f::{closure#0}, a::f::{closure#0}, a::f::{closure#0}::g::{closure#1}, a::f::{closure#0}, a::f::{closure#0}::{closure#0}>",
        "a::f::<a::f::{closure#0}, a::f::{closure#0}, a::f::{closure#0}, a::f::{closure#0}, a::f::{closure#0}, a::f::{closure#0}::g::{closure#1}, a::f::{closure#0}, a::f::{closure#0}::{closure#0}>",
    ),
    (
        "_RMC0TC0B3_B3_B3_B3_NvB3_1aTB3_B3_EE",
        "<(, , , , , ::a, (, ))>",
        "<(, , , , , ::a, (, ))>",
    ),
];

/// Symbols whose references lead to one place as a type, in a value or as a constant.
const VALUES: [(&str, &str, &str); 6] = [
    (
        "_RINvIC1aC1bE1fB2_B2_B2_B2_KVB2_UKVB2_UKVB2_UB2_KVB2_UB2_E",
        "a::<b>::f::<a<b>, a<b>, a<b>, a<b>, {a::<b>}, {a::<b>}, {a::<b>}, a<b>, {a::<b>}, a<b>>",
        "a::<b>::f::<a<b>, a<b>, a<b>, a<b>, {a::<b>}, {a::<b>}, {a::<b>}, a<b>, {a::<b>}, a<b>>",
    ),
    (
        "_RINvC1a1fKVIC1aC1bEUKVB9_UKVB9_UKVB9_UKVB9_UB9_B9_B9_KVB9_UB9_E",
        "a::f::<{a::<b>}, {a::<b>}, {a::<b>}, {a::<b>}, {a::<b>}, a<b>, a<b>, a<b>, {a::<b>}, a<b>>",
        "a::f::<{a::<b>}, {a::<b>}, {a::<b>}, {a::<b>}, {a::<b>}, a<b>, a<b>, a<b>, {a::<b>}, a<b>>",
    ),
    (
        "_RINvC1a1fNtIC1aC1bE1xNtB9_1xNtB9_1xNtB9_1xKVNtB9_1xUKVNtB9_1xUKVNtB9_1xUNtB9_1xKVNtB9_1xUNtB9_1xE",
        "a::f::<a<b>::x, a<b>::x, a<b>::x, a<b>::x, {a::<b>::x}, {a::<b>::x}, {a::<b>::x}, a<b>::x, {a::<b>::x}, a<b>::x>",
        "a::f::<a<b>::x, a<b>::x, a<b>::x, a<b>::x, {a::<b>::x}, {a::<b>::x}, {a::<b>::x}, a<b>::x, {a::<b>::x}, a<b>::x>",
    ),
    (
        "_RIC1aKj7_KB4_KB4_KB4_KB4_B4_B4_B4_KB4_B4_E",
        "a::<7usize, 7usize, 7usize, 7usize, 7usize, usize, usize, usize, 7usize, usize>",
        "a::<7, 7, 7, 7, 7, usize, usize, usize, 7, usize>",
    ),
    (
        "_RIC1aKRe6162c3a9_KB4_KB4_KB4_KB4_KB4_KRe61_KB4_E",
        "a::<\"abé\", \"abé\", \"abé\", \"abé\", \"abé\", \"abé\", \"a\", \"abé\">",
        "a::<\"abé\", \"abé\", \"abé\", \"abé\", \"abé\", \"abé\", \"a\", \"abé\">",
    ),
    (
        "_RIC1aAThaEj3_B3_B4_B3_B4_AB3_j4_B3_E",
        "a::<[(u8, i8); 3usize], [(u8, i8); 3usize], (u8, i8), [(u8, i8); 3usize], (u8, i8), [[(u8, i8); 3usize]; 4usize], [(u8, i8); 3usize]>",
        "a::<[(u8, i8); 3], [(u8, i8); 3], (u8, i8), [(u8, i8); 3], (u8, i8), [[(u8, i8); 3]; 4], [(u8, i8); 3]>",
    ),
];

/// Symbols whose targets have lifetimes, function types or trait objects.
const BINDERS: [(&str, &str, &str); 4] = [
    (
        "_RIC1aFG_RL0_hEuFG_B6_EuFG_B6_EuFG_B6_EuFG_B6_EuFG0_B6_EuFG0_B6_EuFG_B6_EuFG_FG_B6_EuEuE",
        "a::<for<'a> fn(&'a u8), for<'a> fn(&'a u8), for<'a> fn(&'a u8), for<'a> fn(&'a u8), for<'a> fn(&'a u8), for<'a, 'b> fn(&'b u8), for<'a, 'b> fn(&'b u8), for<'a> fn(&'a u8), for<'a> fn(for<'b> fn(&'b u8))>",
        "a::<for<'a> fn(&'a u8), for<'a> fn(&'a u8), for<'a> fn(&'a u8), for<'a> fn(&'a u8), for<'a> fn(&'a u8), for<'a, 'b> fn(&'b u8), for<'a, 'b> fn(&'b u8), for<'a> fn(&'a u8), for<'a> fn(for<'b> fn(&'b u8))>",
    ),
    (
        "_RIC1aFG0_TRL0_hRL1_hB8_Bd_EEuFG0_B8_Bd_EuFG0_B8_Bd_EuFG0_B8_Bd_EuFG_B8_EuB8_FG0_Bd_EuE",
        "a::<for<'a, 'b> fn((&'b u8, &'a u8, &'b u8, &'a u8)), for<'a, 'b> fn(&'b u8, &'a u8), for<'a, 'b> fn(&'b u8, &'a u8), for<'a, 'b> fn(&'b u8, &'a u8), for<'a> fn(&'a u8), &'{invalid syntax} ?, for<'a, 'b> fn(&'a u8)>",
        "a::<for<'a, 'b> fn((&'b u8, &'a u8, &'b u8, &'a u8)), for<'a, 'b> fn(&'b u8, &'a u8), for<'a, 'b> fn(&'b u8, &'a u8), for<'a, 'b> fn(&'b u8, &'a u8), for<'a> fn(&'a u8), &'{invalid syntax} ?, for<'a, 'b> fn(&'a u8)>",
    ),
    (
        "_RIC1aFK3abiTRhQaEEuB3_B3_B3_B9_B9_FUK1CB9_EB3_Bg_E",
        "a::<extern \"abi\" fn((&u8, &mut i8)), extern \"abi\" fn((&u8, &mut i8)), extern \"abi\" fn((&u8, &mut i8)), extern \"abi\" fn((&u8, &mut i8)), (&u8, &mut i8), (&u8, &mut i8), unsafe extern \"C\" fn((&u8, &mut i8)) -> extern \"abi\" fn((&u8, &mut i8)), ()>",
        "a::<extern \"abi\" fn((&u8, &mut i8)), extern \"abi\" fn((&u8, &mut i8)), extern \"abi\" fn((&u8, &mut i8)), extern \"abi\" fn((&u8, &mut i8)), (&u8, &mut i8), (&u8, &mut i8), unsafe extern \"C\" fn((&u8, &mut i8)) -> extern \"abi\" fn((&u8, &mut i8)), ()>",
    ),
    (
        "_RIC1aDIC1buEEL_DB4_p1XhEL_DB4_p1XhEL_DB4_p1XhEL_DB4_EL_B4_B4_DB4_p1YhEL_E",
        "a::<dyn b<()>, dyn b<(), X = u8>, dyn b<(), X = u8>, dyn b<(), X = u8>, dyn b<()>, b<()>, b<()>, dyn b<(), Y = u8>>",
        "a::<dyn b<()>, dyn b<(), X = u8>, dyn b<(), X = u8>, dyn b<(), X = u8>, dyn b<()>, b<()>, b<()>, dyn b<(), Y = u8>>",
    ),
];

/// Symbols whose targets have a syntax error.
const ERRORS: [(&str, &str, &str); 3] = [
    (
        "_RIC3TZpThEB2_B2_B2_B2_B2_E",
        "TZp::<(u8,), ({invalid syntax},), ({invalid syntax},), ({invalid syntax},), ({invalid syntax},), ({invalid syntax},)>",
        "TZp::<(u8,), ({invalid syntax},), ({invalid syntax},), ({invalid syntax},), ({invalid syntax},), ({invalid syntax},)>",
    ),
    (
        "_RINvC6NvC1aZ1fNvB4_1gNvB4_1hNvB4_1iNvB4_1jB4_E",
        "NvC1aZ::f::<a{invalid syntax}::g, a{invalid syntax}::h, a{invalid syntax}::i, a{invalid syntax}::j, a{invalid syntax}>",
        "NvC1aZ::f::<a{invalid syntax}::g, a{invalid syntax}::h, a{invalid syntax}::i, a{invalid syntax}::j, a{invalid syntax}>",
    ),
    (
        "_RIC1aC5ThZpETTB5_hEBb_Bb_Bb_EBb_E",
        "a::<ThZpE, (((u8, {invalid syntax}), u8), ((u8, {invalid syntax}), u8), ((u8, {invalid syntax}), u8), ((u8, {invalid syntax}), u8)), ((u8, {invalid syntax}), u8)>",
        "a::<ThZpE, (((u8, {invalid syntax}), u8), ((u8, {invalid syntax}), u8), ((u8, {invalid syntax}), u8), ((u8, {invalid syntax}), u8)), ((u8, {invalid syntax}), u8)>",
    ),
];

/// Returns `true` if a slice of this many bytes gets the same as an array, which does not hold its
/// text.
fn prints_alike(symbol: &str, format: Format, room: usize) -> bool {
    let mut array: ArraySink<4096> = ArraySink::new();
    let mut memory = [9; 4096];
    let Some(out) = memory.get_mut(..room) else {
        return false;
    };
    let mut slice = SliceSink::new(out);
    let written = demangle(symbol).write_formatted(&mut slice, format);
    let len = slice.len();
    let printed = demangle(symbol).write_formatted(&mut array, format);
    let text = array.as_str().as_bytes();
    let kept = memory.get(..room.min(len));
    written.is_ok() && printed.is_ok() && len == text.len() && kept == text.get(..room.min(len))
}

/// Asserts that symbols print as their texts, in a slice and in an array.
fn assert_all_print(symbols: &[(&str, &str, &str)]) {
    for (symbol, plain, alt) in symbols {
        assert_prints(symbol, plain, alt);
        for (include_hash, text) in [(true, plain), (false, alt)] {
            let mut memory = [9; 1024];
            let len = demangle_slice(symbol.as_bytes(), &mut memory, include_hash, 1_000_000);
            assert_eq!(len, Some(text.len()), "{symbol} in a slice");
            assert!(memory.starts_with(text.as_bytes()), "{symbol} in a slice");
        }
        assert_alike(symbol, 400);
    }
}

/// Asserts that a slice and an array get the same, in each form, under each limit up to `most`, and
/// in each slice of up to that many bytes.
fn assert_alike(symbol: &str, most: usize) {
    for (include_hash, fold_arguments) in [(true, false), (false, false), (false, true)] {
        let form = Form {
            include_hash,
            fold_arguments,
        };
        for bytes in 0..most {
            let limited = Format {
                form,
                limit: SizeLimit::Bytes(bytes),
                reread: RereadLimit::Unlimited,
            };
            assert!(prints_alike(symbol, limited, 4096), "{symbol} at {bytes}");
            let whole = Format {
                form,
                limit: SizeLimit::Bytes(1_000_000),
                reread: RereadLimit::Unlimited,
            };
            assert!(prints_alike(symbol, whole, bytes), "{symbol} in {bytes}");
            let reread = Format {
                form,
                limit: SizeLimit::Bytes(1_000_000),
                reread: RereadLimit::Bytes(bytes),
            };
            assert!(prints_alike(symbol, reread, 4096), "{symbol} with {bytes}");
        }
    }
}

#[test]
fn paths_are_repeated() {
    assert_all_print(&PATHS);
}

#[test]
fn a_target_is_a_type_or_a_value() {
    assert_all_print(&VALUES);
}

#[test]
fn a_target_has_the_lifetimes_of_its_reference() {
    assert_all_print(&BINDERS);
}

#[test]
fn an_error_in_a_target_is_repeated() {
    assert_all_print(&ERRORS);
}

/// What follows a type of 100 references and one byte, and a reference to that. Then the references
/// in front of its text, below how many others it is too deep, and how many are printed then.
const DEEP: [(&str, &str, &str, usize, usize); 2] = [
    ("B3_", "B3_", "", 398, 497),
    ("RB3_", "B1G_", "&", 395, 495),
];

#[test]
fn a_target_is_too_deep_at_one_reference_only() -> Result<(), Fail> {
    let rt = HostRuntime;
    let alloc = rt.alloc();
    let target = repeat_between(alloc, "", "R", 100, "h")?;
    let whole = repeat_between(alloc, "", "&", 100, "u8")?;
    for (next, again, sign, least, signs) in DEEP {
        let one = format!(in alloc; "{sign}{whole}")?;
        let cut = repeat_between(alloc, "", "&", signs, "{recursion limit reached}")?;
        for depth in [0, 200, 290, 300, 393, 394, 395, 396, 397, 398, 399, 401] {
            let above = repeat_between(alloc, "", "R", depth, again)?;
            let printed = repeat_between(alloc, "", "&", depth, one.as_str())?;
            let text = if depth < least { &printed } else { &cut };
            let symbol = format!(in alloc;
                "_RIC1a{target}{next}{again}{again}{above}{above}{again}E"
            )?;
            let path = format!(in alloc;
                "a::<{whole}, {one}, {one}, {one}, {text}, {text}, {one}>"
            )?;
            assert_prints(symbol.as_str(), path.as_str(), path.as_str());
            let mut memory = [9; 2048];
            let len = demangle_slice(symbol.as_bytes(), &mut memory, true, 1_000_000);
            assert_eq!(len, Some(path.len()), "below {depth}");
            assert!(memory.starts_with(path.as_bytes()), "below {depth}");
        }
    }
    Ok(())
}
