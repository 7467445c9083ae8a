// Made from crates/demangle_vectors/src/tests/literals.rt by packaging/crate/erase.py: edit that file instead.
//! Tests of the literals of known constants.
use crate::demangle_sink::{ArraySink, SizeLimitedFmtAdapter};
use crate::demangle_symbol::cursor::Symbol;
use crate::demangle_symbol::literal::{
    bool_of, character_of, is_string, put_char_literal, put_string_literal,
};

/// Returns the number of a hexadecimal string.
fn number(word: &str) -> Option<u128> {
    let symbol = Symbol::new(word);

    let Ok((nibbles, _)) = symbol.hex_nibbles(0) else {
        return None;
    };
    symbol.hex_number(nibbles)
}

/// Returns `true` if the char constant of this hexadecimal string prints as this text.
fn prints_char(word: &str, text: &str) -> bool {
    let Some(c) = character_of(number(word)) else {
        return false;
    };
    let mut sink = ArraySink::<64>::new();
    let mut out = SizeLimitedFmtAdapter::new(&mut sink, 1_000_000);
    if put_char_literal(c, &mut out).is_err() {
        return false;
    }
    sink.as_str() == text
}

/// Returns `true` if this hexadecimal string spells a string.
fn spells(word: &str) -> bool {
    let symbol = Symbol::new(word);

    match symbol.hex_nibbles(0) {
        Ok((nibbles, _)) => is_string(&symbol, nibbles),
        Err(_) => false,
    }
}

/// Returns `true` if the string constant of this hexadecimal string prints as this text.
fn prints_string(word: &str, text: &str) -> bool {
    let symbol = Symbol::new(word);

    let Ok((nibbles, _)) = symbol.hex_nibbles(0) else {
        return false;
    };
    if !is_string(&symbol, nibbles) {
        return false;
    }
    let mut sink = ArraySink::<64>::new();
    let mut out = SizeLimitedFmtAdapter::new(&mut sink, 1_000_000);
    if put_string_literal(&symbol, nibbles, &mut out).is_err() {
        return false;
    }
    sink.as_str() == text
}

#[test]
fn characters() {
    assert!(prints_char("76_", "'v'"));
    assert!(prints_char("22_", "'\"'"));
    assert!(prints_char("27_", "'\\''"));
    assert!(prints_char("a_", "'\\n'"));
    assert!(prints_char("2202_", "'∂'"));
    assert!(prints_char("_", "'\\0'"));
    assert!(prints_char("7f_", "'\\u{7f}'"));
    assert!(prints_char("1b_", "'\\u{1b}'"));
}

#[test]
fn characters_past_ascii() {
    assert!(prints_char("a0_", "'\\u{a0}'"));
    assert!(prints_char("301_", "'\\u{301}'"));
    assert!(prints_char("ad_", "'\\u{ad}'"));
    assert!(prints_char("200b_", "'\\u{200b}'"));
    assert!(prints_char("3000_", "'\\u{3000}'"));
    assert!(prints_char("e000_", "'\\u{e000}'"));
}

#[test]
fn no_characters() {
    assert!(character_of(number("d800_")).is_none());
    assert!(character_of(number("110000_")).is_none());
}

#[test]
fn booleans() {
    assert_eq!(bool_of(number("_")), Some(false));
    assert_eq!(bool_of(number("00_")), Some(false));
    assert_eq!(bool_of(number("1_")), Some(true));
    assert_eq!(bool_of(number("2_")), None);
}

#[test]
fn strings() {
    assert!(prints_string("22_", "\"\\\"\""));
    assert!(prints_string("5c_", "\"\\\\\""));
    assert!(prints_string("27_", "\"'\""));
    assert!(prints_string("616263_", "\"abc\""));
    assert!(prints_string("090a_", "\"\\t\\n\""));
    assert!(prints_string("e28882c3bc_", "\"∂ü\""));
    assert!(prints_string("_", "\"\""));
    assert!(!spells("6_"));
    assert!(!spells("c080_"));
}
