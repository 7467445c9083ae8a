// Made from crates/demangle_symbol/src/literal.rt by packaging/crate/erase.py: edit that file instead.
//! Prints the literals of char and string constants.

use crate::demangle_sink::{SinkRefused, SizeLimitedFmtAdapter, TextSink, put_char, put_chars};
use crate::support::arrayvec::ArrayVec;
use crate::support::unicode::properties::{GeneralCategory, is_grapheme_extend};

mod strings;

pub use strings::{is_string, put_string_literal};

/// The way to write a character in a literal.
#[derive(Clone, Copy)]
enum Escape {
    /// The character itself.
    Itself,
    /// A backslash, then this character.
    Backslash(char),
    /// Its code in hexadecimal digits, between `\u{` and `}`.
    Code,
}

/// Returns `true` if a character of this category, past ASCII, is written as its code.
fn is_hidden_category(category: GeneralCategory) -> bool {
    matches!(
        category,
        GeneralCategory::Control
            | GeneralCategory::Format
            | GeneralCategory::Surrogate
            | GeneralCategory::PrivateUse
            | GeneralCategory::Unassigned
            | GeneralCategory::LineSeparator
            | GeneralCategory::ParagraphSeparator
            | GeneralCategory::SpaceSeparator
    )
}

/// Returns `true` if a character past ASCII is written as itself.
fn is_shown(c: char) -> bool {
    c >= '\u{80}' && !is_hidden_category(GeneralCategory::for_char(c)) && !is_grapheme_extend(c)
}

/// Returns the way to write a character in a literal with this quote.
fn literal_escape(quote: char, c: char) -> Escape {
    // Only the literal's own quote is escaped. A string literal contains `'` unescaped, and a char
    // literal `"`.
    if c == quote || c == '\\' {
        return Escape::Backslash(c);
    }
    match c {
        '\0' => Escape::Backslash('0'),
        '\t' => Escape::Backslash('t'),
        '\n' => Escape::Backslash('n'),
        '\r' => Escape::Backslash('r'),
        ' '..='~' => Escape::Itself,
        _ => {
            if is_shown(c) {
                Escape::Itself
            } else {
                Escape::Code
            }
        }
    }
}

/// Returns the byte of a hexadecimal digit.
fn digit_byte(digit: u64) -> u8 {
    if digit < 10 {
        b'0' + digit as u8
    } else {
        b'a' + (digit as u8 - 10)
    }
}

/// Returns the character of a hexadecimal digit.
fn digit_char(digit: u64) -> char {
    char::from(digit_byte(digit))
}

/// Returns the hexadecimal digits of a number, the highest first.
fn hexadecimal(number: u64) -> ArrayVec<char, 16> {
    let mut text = ArrayVec::new();
    let mut rest = number;
    for _turn in 0..16_usize {
        text.insert(0, digit_char(rest % 16));
        rest /= 16;
        if rest == 0 {
            return text;
        }
    }
    text
}

/// Puts the code of a character between `\u{` and `}`.
fn put_code<S: TextSink>(
    c: char,
    out: &mut SizeLimitedFmtAdapter<'_, S>,
) -> Result<(), SinkRefused> {
    put_chars(&['\\', 'u', '{'], out)?;
    put_chars(&hexadecimal(c as u64), out)?;
    put_char('}', out)
}

/// Puts a backslash and a character.
fn put_backslashed<S: TextSink>(
    letter: char,
    out: &mut SizeLimitedFmtAdapter<'_, S>,
) -> Result<(), SinkRefused> {
    put_char('\\', out)?;
    put_char(letter, out)
}

/// Puts one character of a literal in its escaped form. Each character of that form is one piece.
fn put_escaped<S: TextSink>(
    quote: char,
    c: char,
    out: &mut SizeLimitedFmtAdapter<'_, S>,
) -> Result<(), SinkRefused> {
    match literal_escape(quote, c) {
        Escape::Itself => put_char(c, out),
        Escape::Backslash(letter) => put_backslashed(letter, out),
        Escape::Code => put_code(c, out),
    }
}

/// Puts the literal of a character: a quote, the character and a quote.
///
/// # Errors
///
/// Returns `SinkRefused` if the sink or the size limit rejects a piece. No later piece is sent.
#[inline(never)]
pub fn put_char_literal<S: TextSink>(
    c: char,
    out: &mut SizeLimitedFmtAdapter<'_, S>,
) -> Result<(), SinkRefused> {
    put_char('\'', out)?;
    put_escaped('\'', c, out)?;
    put_char('\'', out)
}

/// Returns the character of a char constant, given the number of its hexadecimal string. The result
/// is `None` if there is no number or the number is not a Unicode scalar value.
pub fn character_of(number: Option<u128>) -> Option<char> {
    let code = u32::try_from(number?).ok()?;
    char::from_u32(code)
}

/// Returns the value of a bool constant, given the number of its hexadecimal string. Only 0 and 1
/// have a value.
pub fn bool_of(number: Option<u128>) -> Option<bool> {
    match number {
        Some(0) => Some(false),
        Some(1) => Some(true),
        _ => None,
    }
}
