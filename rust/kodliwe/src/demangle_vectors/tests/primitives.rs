// Made from crates/demangle_vectors/src/tests/primitives.rt by packaging/crate/erase.py: edit that file instead.
//! Tests of the primitives of known symbols.
use crate::demangle_symbol::cursor::{Ident, ParseError, Symbol};

fn integer(text: &str) -> Result<(u64, usize), ParseError> {
    Symbol::new(text).integer_62(0)
}

fn optional(text: &str, tag: u8) -> Result<(u64, usize), ParseError> {
    Symbol::new(text).opt_integer_62(tag, 0)
}

fn disambiguator(text: &str) -> Result<(u64, usize), ParseError> {
    Symbol::new(text).disambiguator_if(true, 0)
}

fn unneeded_disambiguator(text: &str) -> Result<(u64, usize), ParseError> {
    Symbol::new(text).disambiguator_if(false, 0)
}

fn after_disambiguator(text: &str) -> Result<usize, ParseError> {
    Symbol::new(text).after_disambiguator(0)
}

fn namespace(text: &str) -> Result<(u8, usize), ParseError> {
    Symbol::new(text).namespace(0)
}

/// Returns the bounds of both parts of a name, and the place after it.
fn parts(text: &str) -> Result<(usize, usize, usize, usize, usize), ParseError> {
    let (name, next) = Symbol::new(text).ident(0)?;
    let Ident { ascii, punycode } = name;
    Ok((ascii.from, ascii.to, punycode.from, punycode.to, next))
}

fn number(text: &str) -> Result<Option<u128>, ParseError> {
    let symbol = Symbol::new(text);

    let (nibbles, _) = symbol.hex_nibbles(0)?;
    Ok(symbol.hex_number(nibbles))
}

#[test]
fn integers() {
    assert_eq!(integer("_"), Ok((0, 1)));
    assert_eq!(integer("0_"), Ok((1, 2)));
    assert_eq!(integer("Z_"), Ok((62, 2)));
    assert_eq!(integer("10_"), Ok((63, 3)));
    assert_eq!(integer("lYGhA16ahye_"), Ok((18446744073709551615, 12)));
    assert_eq!(integer("lYGhA16ahyf_"), Err(ParseError::Invalid));
}

#[test]
fn optional_integers() {
    assert_eq!(optional("x", b'G'), Ok((0, 0)));
    assert_eq!(optional("s_", b'G'), Ok((0, 0)));
    assert_eq!(optional("G_", b'G'), Ok((1, 2)));
    assert_eq!(optional("G0_", b'G'), Ok((2, 3)));
    assert_eq!(
        optional("GlYGhA16ahyd_", b'G'),
        Ok((18446744073709551615, 13))
    );
    assert_eq!(optional("GlYGhA16ahye_", b'G'), Err(ParseError::Invalid));
    assert_eq!(optional("G", b'G'), Err(ParseError::Invalid));
}

#[test]
fn disambiguators() {
    assert_eq!(disambiguator("x"), Ok((0, 0)));
    assert_eq!(disambiguator("s_"), Ok((1, 2)));
    assert_eq!(
        disambiguator("slYGhA16ahyd_"),
        Ok((18446744073709551615, 13))
    );
    assert_eq!(disambiguator("slYGhA16ahye_"), Err(ParseError::Invalid));
}

#[test]
fn unneeded_disambiguators() {
    assert_eq!(unneeded_disambiguator("x"), Ok((0, 0)));
    assert_eq!(unneeded_disambiguator("s_"), Ok((0, 2)));
    assert_eq!(unneeded_disambiguator("slYGhA16ahyd_"), Ok((0, 13)));
    assert_eq!(
        unneeded_disambiguator("slYGhA16ahye_"),
        Err(ParseError::Invalid)
    );
    assert_eq!(unneeded_disambiguator("s"), Err(ParseError::Invalid));
}

#[test]
fn ends_of_disambiguators() {
    assert_eq!(after_disambiguator("x"), Ok(0));
    assert_eq!(after_disambiguator("s_"), Ok(2));
    assert_eq!(after_disambiguator("sZ_3foo"), Ok(3));
    assert_eq!(after_disambiguator("sZZZZZZZZZZ_3foo"), Ok(12));
    assert_eq!(after_disambiguator("skZZZZZZZZZZ_3foo"), Ok(13));
    assert_eq!(after_disambiguator("slYGhA16ahyd_"), Ok(13));
    assert_eq!(after_disambiguator("s00lYGhA16ahyd_"), Ok(15));
    assert_eq!(
        after_disambiguator("slYGhA16ahye_"),
        Err(ParseError::Invalid)
    );
    assert_eq!(
        after_disambiguator("s100000000000_"),
        Err(ParseError::Invalid)
    );
    assert_eq!(
        after_disambiguator("sZZZZZZZ.ZZZZ_"),
        Err(ParseError::Invalid)
    );
    assert_eq!(after_disambiguator("s0123456789"), Err(ParseError::Invalid));
}

#[test]
fn namespaces() {
    assert_eq!(namespace("v"), Ok((b'v', 1)));
    assert_eq!(namespace("C"), Ok((b'C', 1)));
    assert_eq!(namespace("_"), Err(ParseError::Invalid));
}

#[test]
fn identifiers() {
    assert_eq!(parts("0"), Ok((1, 1, 1, 1, 1)));
    assert_eq!(parts("3_foo"), Ok((2, 5, 5, 5, 5)));
    assert_eq!(parts("4abc"), Err(ParseError::Invalid));
    assert_eq!(parts("u5a_b_c"), Ok((2, 5, 6, 7, 7)));
    assert_eq!(parts("u3abc"), Ok((2, 2, 2, 5, 5)));
    assert_eq!(parts("u2a_"), Err(ParseError::Invalid));
}

#[test]
fn hex_numbers() {
    assert_eq!(number("_"), Ok(Some(0)));
    assert_eq!(number("00ff_"), Ok(Some(255)));
    assert_eq!(number("ffffffffffffffff_"), Ok(Some(18446744073709551615)));
    assert_eq!(number("10000000000000000_"), Ok(Some(18446744073709551616)));
    assert_eq!(
        number("ffffffffffffffffffffffffffffffff_"),
        Ok(Some(340282366920938463463374607431768211455))
    );
    assert_eq!(number("100000000000000000000000000000000_"), Ok(None));
    assert_eq!(number("fF_"), Err(ParseError::Invalid));
}

#[test]
fn back_references() {
    let three = Symbol::new("xxxB2_");
    let two = Symbol::new("xxxB1_");
    assert_eq!(three.backref(4, 0,), Err(ParseError::Invalid));
    assert_eq!(three.backref(4, 500,), Err(ParseError::Invalid));
    assert_eq!(two.backref(4, 500,), Err(ParseError::RecursedTooDeep));
    assert_eq!(two.backref(4, 499,), Ok((2, 6)));
}
