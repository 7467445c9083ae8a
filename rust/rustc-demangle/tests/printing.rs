//! The printed texts, which are those of the published crate. This file is compiled with either.
use rustc_demangle::{demangle, try_demangle};
use std::fmt::{self, Write};

/// A symbol, its path with the hash, and without it.
const PATHS: [(&str, &str, &str); 12] = [
    (
        "_ZN3foo17h05af221e174051e9E",
        "foo::h05af221e174051e9",
        "foo",
    ),
    ("_ZNE", "", ""),
    ("_ZN1hE", "h", ""),
    ("_ZN10a$XX$b..cdE", "a$XX$b..cd", "a$XX$b..cd"),
    (
        "_ZN3fooE.llvm.x.llvm.AB",
        "foo.llvm.x.llvm.AB",
        "foo.llvm.x.llvm.AB",
    ),
    ("_RCs_3foo", "foo[1]", "foo"),
    ("_RCu9bcher_kva", "bücher", "bücher"),
    (
        "_RMC0FUK8C_unwindEu",
        "<unsafe extern \"C-unwind\" fn()>",
        "<unsafe extern \"C-unwind\" fn()>",
    ),
    (
        "_RMC0RL0_u",
        "<&'{invalid syntax} ?>",
        "<&'{invalid syntax} ?>",
    ),
    ("_RIC2C5B2_E.zz", "C5::<B2_E.>.zz", "C5::<B2_E.>.zz"),
    ("_RIC0Khb_E", "::<11u8>", "::<11>"),
    ("_RNvC3foo3bar.llvm.0AB@1", "foo::bar", "foo::bar"),
];

/// Texts that are not symbols, and their printed form.
const OTHERS: [(&str, &str); 6] = [
    ("", ""),
    ("main", "main"),
    ("_ZN3foo", "_ZN3foo"),
    ("_ZN3fooE.llvm moocow", "_ZN3fooE.llvm moocow"),
    ("foo.llvm.AB", "foo"),
    ("größe.llvm.x", "größe.llvm.x"),
];

/// The path of `depth` nested tuples, each of which has its first element twice.
fn tuples(depth: usize) -> String {
    (0..depth).fold("_".into(), |inner, _| format!("({inner}, {inner})"))
}

/// The symbol of this path, in which each second element is a back reference.
fn symbol_of_tuples(depth: usize) -> String {
    let digits: Vec<char> = ('0'..='9').chain('a'..='z').collect();
    let references: String = (3..depth + 3)
        .rev()
        .map(|at| format!("B{}_E", digits[at]))
        .collect();
    format!("_RMC0{}p{references}", "T".repeat(depth))
}

/// A writer that counts its texts, and rejects those that exceed its room.
struct Narrow {
    text: String,
    room: usize,
    refused: usize,
}

impl Narrow {
    fn of(room: usize) -> Self {
        Narrow {
            text: String::new(),
            room,
            refused: 0,
        }
    }
}

impl Write for Narrow {
    fn write_str(&mut self, text: &str) -> fmt::Result {
        if self.text.len() + text.len() > self.room {
            self.refused += 1;
            return Err(fmt::Error);
        }
        self.text.push_str(text);
        Ok(())
    }
}

#[test]
fn a_symbol_prints_its_path() {
    for (symbol, with_hash, without) in PATHS {
        let name = try_demangle(symbol).unwrap_or_else(|_| panic!("{symbol}"));
        assert_eq!(name.to_string(), with_hash, "{symbol}");
        assert_eq!(format!("{name:?}"), with_hash, "{symbol}");
        assert_eq!(format!("{name:#}"), without, "{symbol}");
        assert_eq!(format!("{name:#?}"), without, "{symbol}");
        assert_eq!(demangle(symbol).to_string(), with_hash, "{symbol}");
    }
}

#[test]
fn another_text_is_printed_as_it_is() {
    for (text, printed) in OTHERS {
        assert!(try_demangle(text).is_err(), "{text}");
        let name = demangle(text);
        assert_eq!(name.as_str(), printed, "{text}");
        assert_eq!(format!("{name}"), printed, "{text}");
        assert_eq!(format!("{name:#?}"), printed, "{text}");
    }
}

#[test]
fn as_str_has_no_ending_of_thin_lto() {
    assert_eq!(demangle("_ZN3fooE").as_str(), "_ZN3fooE");
    assert_eq!(demangle("_ZN3fooE.llvm.9D1C9369@@16").as_str(), "_ZN3fooE");
    assert_eq!(demangle("_ZN3fooE.exit.llvm.").as_str(), "_ZN3fooE.exit");
    assert_eq!(
        demangle("_ZN3fooE.llvm.9d1c").as_str(),
        "_ZN3fooE.llvm.9d1c"
    );
    assert_eq!(demangle("_RC3foo.llvm.A").as_str(), "_RC3foo");
}

#[test]
fn other_flags_have_no_effect() {
    for text in ["_ZN3foo17h05af221e174051e9E", "_RCs_3foo", "main"] {
        let name = demangle(text);
        let plain = name.to_string();
        assert_eq!(format!("{name:40}"), plain);
        assert_eq!(format!("{name:^40.2}"), plain);
        assert_eq!(format!("{name:*>+040}"), plain);
        assert_eq!(format!("{name:.1?}"), plain);
        assert_eq!(format!("{name:x?}"), plain);
        assert_eq!(format!("{name:#40.2}"), format!("{name:#}"));
    }
}

#[test]
fn a_path_of_any_size_is_whole() {
    for depth in [6, 7, 8, 9, 10, 11, 12, 15] {
        let name = symbol_of_tuples(depth);
        assert_eq!(
            format!("{:#}", demangle(&name)),
            format!("<{}>", tuples(depth)),
            "{depth}"
        );
    }
}

#[test]
fn characters_of_more_bytes_are_whole() {
    for count in [341, 1364, 1365, 1366, 23_210, 23_211, 60_000] {
        let symbol = format!("_ZN{}x{}E", 1 + 7 * count, "$u20ac$".repeat(count));
        assert!(
            demangle(&symbol).to_string() == format!("x{}", "€".repeat(count)),
            "{count}"
        );
    }
}

#[test]
fn a_path_past_the_limit_is_cut_before_its_suffix() {
    let printed = demangle(&(symbol_of_tuples(18) + ".cold.1")).to_string();
    let kept = printed
        .strip_suffix("{size limit reached}.cold.1")
        .expect("the end");
    // The next piece, `, `, would exceed it.
    assert_eq!(kept.len(), 999_999);
    assert!(kept == &format!("<{}>", tuples(18))[..999_999]);
}

#[test]
fn a_long_name_is_whole() {
    for len in [1023, 1024, 4092, 4093, 4094, 4095, 4096, 70_000] {
        let name = "n".repeat(len);
        assert_eq!(
            demangle(&format!("_RNvC1a{len}{name}")).to_string(),
            format!("a::{name}")
        );
        assert_eq!(demangle(&format!("_ZN{len}{name}E")).to_string(), name);
    }
}

#[test]
fn an_error_of_the_formatter_ends_the_printing() {
    for depth in [2, 9, 12, 15] {
        let symbol = symbol_of_tuples(depth);
        let whole = format!("<{}>", tuples(depth));
        for room in [0, whole.len() / 2, whole.len() - 1] {
            let mut narrow = Narrow::of(room);
            assert!(
                write!(narrow, "{:#}", demangle(&symbol)).is_err(),
                "{depth} {room}"
            );
            assert_eq!(narrow.refused, 1, "{depth} {room}");
            assert!(whole.starts_with(&narrow.text), "{depth} {room}");
        }
        let mut wide = Narrow::of(whole.len());
        assert!(write!(wide, "{:#}", demangle(&symbol)).is_ok());
        assert_eq!((wide.text, wide.refused), (whole, 0));
    }
}

#[test]
fn an_error_before_a_text_that_is_no_symbol_is_told() {
    assert!(write!(Narrow::of(3), "{}", demangle("main")).is_err());
    assert!(write!(Narrow::of(4), "{}", demangle("main")).is_ok());
}
