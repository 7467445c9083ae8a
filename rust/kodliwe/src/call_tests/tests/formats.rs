// Made from crates/call_tests/src/tests/formats.rt by packaging/crate/erase.py: edit that file instead.
//! Tests of `Display` and `Debug`. What a test asserts is run, not proved, so that its helpers have
//! no contract.
use crate::rustc_demangle::demangle;
use crate::support::alloc::{AllocError, Global};
use crate::support::format;
use crate::support::rt::HostRuntime;
use crate::support::string::String;
use crate::support::test::Fail;
use core::fmt;
use core::fmt::{Debug, Display, Write};

/// Returns the texts of a value for `Display` and for `Debug`.
fn texts_of<T: Display + Debug>(alloc: Global, value: &T) -> Result<[String; 2], AllocError> {
    Ok([
        format!(in alloc; "{}", value)?,
        format!(in alloc; "{:?}", value)?,
    ])
}

/// Returns both texts of a value with the alternate flag.
fn alternate_texts<T: Display + Debug>(
    alloc: Global,
    value: &T,
) -> Result<[String; 2], AllocError> {
    Ok([
        format!(in alloc; "{:#}", value)?,
        format!(in alloc; "{:#?}", value)?,
    ])
}

/// Returns the texts of a value with other flags.
fn flagged_texts<T: Display + Debug>(alloc: Global, value: &T) -> Result<[String; 6], AllocError> {
    Ok([
        format!(in alloc; "{:>40}", value)?,
        format!(in alloc; "{:*^+040.2}", value)?,
        format!(in alloc; "{:>40?}", value)?,
        format!(in alloc; "{:40?}", value)?,
        format!(in alloc; "{:.3?}", value)?,
        format!(in alloc; "{:#>40.3?}", value)?,
    ])
}

#[test]
fn the_alternate_flag_leaves_out_the_hash() -> Result<(), Fail> {
    let rt = HostRuntime;
    let alloc = rt.alloc();
    for &(symbol, plain, alt) in &[
        (
            "_ZN3foo17h05af221e174051e9E",
            "foo::h05af221e174051e9",
            "foo",
        ),
        ("_ZN3fooE.x", "foo.x", "foo.x"),
        ("_RCs_3foo", "foo[1]", "foo"),
        (
            "_RMC0WmRm1_m9_.x",
            "<u32 is 1u32..=9u32>.x",
            "<u32 is 1..=9>.x",
        ),
        ("_ZN1hE", "h", ""),
        ("no symbol.llvm.AB", "no symbol", "no symbol"),
    ] {
        let symbol = demangle(symbol);
        for text in texts_of(alloc, &symbol)?.iter() {
            assert_eq!(text.as_str(), plain);
        }
        for text in flagged_texts(alloc, &symbol)?.iter() {
            assert_eq!(text.as_str(), plain);
        }
        for text in alternate_texts(alloc, &symbol)?.iter() {
            assert_eq!(text.as_str(), alt);
        }
    }
    Ok(())
}

#[test]
fn a_symbol_of_ten_thousand_bytes_is_written_whole() -> Result<(), Fail> {
    let rt = HostRuntime;
    let alloc = rt.alloc();
    let mut symbol = String::from_str(alloc, "_ZN3foo")?;
    let mut wanted = String::from_str(alloc, "foo")?;
    for _ in 0..2500 {
        symbol.push_str("3bar")?;
        wanted.push_str("::bar")?;
    }
    symbol.push_str("E")?;
    let symbol = demangle(symbol.as_str());
    for text in texts_of(alloc, &symbol)?.iter() {
        assert_eq!(text.as_str(), wanted.as_str());
    }
    for text in alternate_texts(alloc, &symbol)?.iter() {
        assert_eq!(text.as_str(), wanted.as_str());
    }
    Ok(())
}

/// Takes texts of a given number of bytes together, and fails at the first that exceeds it.
struct Refusing {
    left: usize,
}

impl fmt::Write for Refusing {
    fn write_str(&mut self, s: &str) -> fmt::Result {
        if s.len() > self.left {
            return Err(fmt::Error);
        }
        self.left -= s.len();
        Ok(())
    }
}

/// Returns whether the text of a value is written where only so many bytes are taken.
fn is_displayed<T: Display>(value: &T, left: usize) -> bool {
    let mut text = Refusing { left };
    write!(text, "{}", value).is_ok()
}

/// Returns whether the text of a value for `Debug` is.
fn is_debugged<T: Debug>(value: &T, left: usize) -> bool {
    let mut text = Refusing { left };
    write!(text, "{:?}", value).is_ok()
}

#[test]
fn a_refused_text_is_an_error() {
    let symbol = demangle("_ZN1a1bE.x");
    for left in 0..7usize {
        assert_eq!(is_displayed(&symbol, left), left == 6, "with {left}");
        assert_eq!(is_debugged(&symbol, left), left == 6, "with {left}");
    }
    assert!(is_displayed(&demangle("_ZNE"), 0));
}

#[test]
fn a_refused_text_of_a_long_path_is_an_error() -> Result<(), Fail> {
    let rt = HostRuntime;
    let alloc = rt.alloc();
    let mut symbol = String::from_str(alloc, "_ZN1a")?;
    for _ in 0..150 {
        symbol.push_str("1b")?;
    }
    symbol.push_str("E.x")?;
    let symbol = demangle(symbol.as_str());
    for left in 0..454usize {
        assert_eq!(is_displayed(&symbol, left), left == 453, "with {left}");
    }
    Ok(())
}
