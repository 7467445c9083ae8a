// Made from crates/demangle_legacy/src/units.rt by packaging/crate/erase.py: edit that file instead.
//! Reads the units of a legacy element.

use crate::demangle_symbol::cursor::{Part, Symbol};

/// The text that a unit prints.
#[derive(Clone, Copy)]
pub(super) enum Unit {
    /// `::`
    Separator,
    Char(char),
    /// The bytes of the unit, unchanged.
    Run,
}

/// Returns the place of the first `$` or `.` of a part.
fn special_in(symbol: &Symbol<'_>, part: Part) -> Option<usize> {
    // The part is within the symbol. The compiler knows it by the minimum, and tests one bound.
    let end = part.to.min(symbol.len());
    for at in part.from..end {
        let byte = symbol.byte(at)?;
        // Letters, digits and `_` are greater than these two.
        if byte <= b'.' && (byte == b'$' || byte == b'.') {
            return Some(at);
        }
    }
    None
}

/// Returns the value of a lower case hexadecimal digit, or `None` for any other byte.
fn lower_hex_of(byte: u8) -> Option<u8> {
    match byte {
        b'0'..=b'9' => Some(byte - b'0'),
        b'a'..=b'f' => Some(byte - b'a' + 10),
        _ => None,
    }
}

/// Returns the character of a code, or `None` if the code may not be escaped.
fn escaped_code(code: u32) -> Option<char> {
    match char::from_u32(code) {
        // The Rust crate prints the escape of a control character unchanged.
        Some(c) if !c.is_control() => Some(c),
        _ => None,
    }
}

/// Returns the character of an escape by digits, and the place of the `$` that ends it. Returns
/// `None` if there is no such escape. The part starts with the `u` before the digits.
fn digits_escape(symbol: &Symbol<'_>, part: Part) -> Option<(char, usize)> {
    let mut code: u32 = 0;
    for at in part.from + 1..part.to {
        let byte = symbol.byte(at)?;
        let Some(digit) = lower_hex_of(byte) else {
            if byte != b'$' {
                return None;
            }
            // With no digit the code is 0, a control character, which may not be escaped.
            let c = escaped_code(code)?;
            return Some((c, at));
        };
        code = code * 16 + u32::from(digit);
        // The test at each digit prevents an overflow for any number of digits.
        if code > 0x10_ffff {
            return None;
        }
    }
    None
}

/// Returns the character for two letters between `$`, or `None` if they are not an escape. The
/// first must not be `u`, which starts an escape by digits.
fn letters(first: u8, second: u8) -> Option<char> {
    match (first, second) {
        (b'S', b'P') => Some('@'),
        (b'B', b'P') => Some('*'),
        (b'R', b'F') => Some('&'),
        (b'L', b'T') => Some('<'),
        (b'G', b'T') => Some('>'),
        (b'L', b'P') => Some('('),
        (b'R', b'P') => Some(')'),
        _ => None,
    }
}

/// Returns the character of the escape at the start of a part, and the place of the `$` that ends
/// it. Returns `None` if there is no escape. The part is after a `$`.
// An escape is read in one pass, up to the first byte that no escape has there.
#[cfg_attr(not(debug_assertions), inline(always))]
fn escape_at(symbol: &Symbol<'_>, part: Part) -> Option<(char, usize)> {
    let from = part.from;
    if part.to <= from {
        return None;
    }
    let first = symbol.byte(from)?;
    if first == b'u' {
        return digits_escape(symbol, part);
    }
    if part.to - from < 2 {
        return None;
    }
    let second = symbol.byte(from + 1)?;
    if second == b'$' {
        if first == b'C' {
            return Some((',', from + 1));
        }
        return None;
    }
    if part.to - from < 3 {
        return None;
    }
    if !symbol.is_at(b'$', from + 2) {
        return None;
    }
    let c = letters(first, second)?;
    Some((c, from + 2))
}

/// Returns the unit at a place of an element that ends at `to`, and the place after the unit.
/// Returns `None` if no unit starts there.
// It is inlined since a call would write each unit to memory, and read it from there again.
#[cfg_attr(not(debug_assertions), inline(always))]
pub(super) fn unit_at(symbol: &Symbol<'_>, at: usize, to: usize) -> Option<(Unit, usize)> {
    let next = at + 1;
    let rest = Part { from: next, to };
    match symbol.byte(at)? {
        b'.' => {
            if next < to && symbol.is_at(b'.', next) {
                Some((Unit::Separator, next + 1))
            } else {
                Some((Unit::Char('.'), next))
            }
        }
        b'$' => {
            let (c, end) = escape_at(symbol, rest)?;
            Some((Unit::Char(c), end + 1))
        }
        _ => Some((Unit::Run, special_in(symbol, rest)?)),
    }
}
