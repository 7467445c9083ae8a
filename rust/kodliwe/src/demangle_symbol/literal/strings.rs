// Made from crates/demangle_symbol/src/literal/strings.rt by packaging/crate/erase.py: edit that file instead.
//! Decodes the characters of string constants from their nibbles.

use crate::demangle_sink::{SinkRefused, SizeLimitedFmtAdapter, TextSink, put_char};
use crate::demangle_symbol::cursor::{Part, Symbol, nibble_of};
use crate::demangle_symbol::literal::put_escaped;
use core::str;

/// An iterator over the characters that the nibbles of a string constant spell.
#[derive(Clone, Copy)]
pub struct StrChars {
    /// The nibbles not yet read.
    rest: Part,
}

/// Returns the value of the nibble at a place.
fn nibble_at(symbol: &Symbol<'_>, place: usize) -> u8 {
    match symbol.byte(place) {
        Some(byte) => nibble_of(byte).unwrap_or(0),
        None => 0,
    }
}

/// Returns the byte that the two nibbles from a place spell.
fn nibble_byte(symbol: &Symbol<'_>, place: usize) -> u8 {
    let high = nibble_at(symbol, place);
    let low = nibble_at(symbol, place + 1);
    high * 16 + low
}

/// Returns the first character of these bytes, or `None` if they are not UTF-8.
fn first_char(bytes: &[u8]) -> Option<char> {
    let Ok(text) = str::from_utf8(bytes) else {
        return None;
    };
    text.chars().next()
}

/// Returns the first character of a part and the place after it. Returns `None` if the nibbles do
/// not start with a character.
fn char_at(symbol: &Symbol<'_>, rest: Part) -> Option<(char, usize)> {
    let mut bytes = [0_u8; 4];
    for len in 0..4_usize {
        let at = rest.from + 2 * len;
        if rest.to - at < 2 {
            return None;
        }
        bytes[len] = nibble_byte(symbol, at);
        if let Some(c) = first_char(&bytes[..len + 1]) {
            return Some((c, at + 2));
        }
    }
    None
}

impl StrChars {
    /// Returns an iterator over the characters of these nibbles.
    pub fn new(nibbles: Part) -> StrChars {
        StrChars { rest: nibbles }
    }

    /// Returns `true` if all nibbles have been read.
    pub fn is_done(&self) -> bool {
        self.rest.to <= self.rest.from
    }

    /// Returns the next character and removes its nibbles. Returns `None` if the nibbles do not
    /// start with a character, and then changes nothing.
    pub fn next(&mut self, symbol: &Symbol<'_>) -> Option<char> {
        let (c, next) = char_at(symbol, self.rest)?;
        self.rest.from = next;
        Some(c)
    }
}

/// Returns `true` if the nibbles of a hexadecimal string spell a text: their number is even and
/// their bytes are UTF-8.
#[inline(never)]
pub fn is_string(symbol: &Symbol<'_>, nibbles: Part) -> bool {
    let mut chars = StrChars::new(nibbles);
    while !chars.is_done() {
        let Some(_) = chars.next(symbol) else {
            return false;
        };
    }
    true
}

/// Puts the characters of a string literal in their escaped form.
fn put_characters<S: TextSink>(
    symbol: &Symbol<'_>,
    nibbles: Part,
    out: &mut SizeLimitedFmtAdapter<'_, S>,
) -> Result<(), SinkRefused> {
    let mut chars = StrChars::new(nibbles);
    while !chars.is_done() {
        let Some(c) = chars.next(symbol) else {
            return Ok(());
        };
        put_escaped('"', c, out)?;
    }
    Ok(())
}

/// Puts the literal of a string constant: a quote, its characters and a quote.
///
/// # Errors
///
/// Returns `SinkRefused` if the sink or the size limit rejects a piece. No later piece is sent.
#[inline(never)]
pub fn put_string_literal<S: TextSink>(
    symbol: &Symbol<'_>,
    nibbles: Part,
    out: &mut SizeLimitedFmtAdapter<'_, S>,
) -> Result<(), SinkRefused> {
    put_char('"', out)?;
    put_characters(symbol, nibbles, out)?;
    put_char('"', out)
}
