// Made from crates/demangle_symbol/src/punycode.rt by packaging/crate/erase.py: edit that file instead.
//! Decodes Punycode (RFC 3492) in the form of v0 names: `_` replaces `-`, and digits are lower
//! case.

use crate::demangle_symbol::cursor::{Ident, Part, Symbol};
use crate::support::arrayvec::ArrayVec;

mod printing;

/// The most characters that a decoded name may have.
pub const SMALL_PUNYCODE_LEN: usize = 128;

/// The largest delta that can give a character, whatever precedes it. A larger one raises the
/// character number by at least 0x110000, since there are at most 129 characters.
const MAX_DELTA: u64 = 0x11_0000 * 129 - 1;

/// Returns the value of a Punycode digit, or `None` for any other byte. An upper case letter is not
/// a digit.
fn digit_of(byte: u8) -> Option<u64> {
    match byte {
        b'a'..=b'z' => Some(u64::from(byte - b'a')),
        b'0'..=b'9' => Some(u64::from(byte - b'0') + 26),
        _ => None,
    }
}

/// Returns the value of the digit at a place of the symbol, or `None` if another byte is there.
fn digit_at(symbol: &Symbol<'_>, place: usize) -> Option<u64> {
    match symbol.byte(place) {
        Some(byte) => digit_of(byte),
        None => None,
    }
}

/// Returns the threshold of a digit of a delta. `place` is 36 for the first digit, and 36 more for
/// each later one.
fn threshold(place: u64, bias: u64) -> u64 {
    // RFC 3492 uses the least threshold, 1, for a place up to the bias. The difference is 0 there,
    // as it saturates.
    place.saturating_sub(bias).clamp(1, 26)
}

/// Returns the bias after a delta. `count` is the number of characters with the new one.
fn adapt(delta: u64, count: u64, first: bool) -> u64 {
    // The parameters of RFC 3492 (5) are: damping 700, skew 38, thresholds 1 to 26, base 36. So 35
    // is the base minus the least threshold, and 455 is half of 35 x 26.
    let damped = if first { delta / 700 } else { delta / 2 };
    let mut delta = damped + damped / count;
    let mut place = 0;
    while delta > 455 {
        delta /= 35;
        place += 36;
    }
    place + 36 * delta / (delta + 38)
}

/// Reads the first delta of a part and returns it with the place after it. Returns `None` if a byte
/// is not a digit, if the part ends too early, or if the delta is too large for any character.
fn delta_at(symbol: &Symbol<'_>, digits: Part, bias: u64) -> Option<(u64, usize)> {
    let mut sum: u64 = 0;
    let mut weight: u64 = 1;
    let mut place: u64 = 36;
    for at in digits.from..digits.to {
        let digit = digit_at(symbol, at)?;
        let last_below = threshold(place, bias);
        sum += digit * weight;
        if sum > MAX_DELTA {
            return None;
        }
        if digit < last_below {
            return Some((sum, at + 1));
        }
        // This cannot overflow. A digit that does not end the delta is at least 1. So the sum is at
        // least the weight, and the sum is within the limit.
        weight *= 36 - last_below;
        place += 36;
    }
    None
}

/// Returns the characters of an ASCII part, or `None` if there are more than 128.
fn ascii_characters(
    symbol: &Symbol<'_>,
    ascii: Part,
) -> Option<ArrayVec<char, SMALL_PUNYCODE_LEN>> {
    let mut characters = ArrayVec::new();
    if ascii.to - ascii.from > SMALL_PUNYCODE_LEN {
        return None;
    }
    for at in ascii.from..ascii.to {
        if let Some(byte) = symbol.byte(at) {
            characters.push(char::from(byte));
        }
    }
    Some(characters)
}

/// Returns the characters of a name with a Punycode part. Returns `None` if a digit is invalid, a
/// delta is incomplete, a value is not a Unicode scalar value, or there are more than 128
/// characters.
#[inline(never)]
fn decode(symbol: &Symbol<'_>, name: Ident) -> Option<ArrayVec<char, SMALL_PUNYCODE_LEN>> {
    let mut characters = ascii_characters(symbol, name.ascii)?;
    let end = name.punycode.to;
    // The initial values of RFC 3492. `n` is the last code point that was inserted, and `i` the
    // index after it.
    let mut bias: u64 = 72;
    let mut first = true;
    let mut n: u64 = 0x80;
    let mut i: u64 = 0;
    let mut at = name.punycode.from;
    while at < end {
        let digits = Part { from: at, to: end };
        let (delta, next) = delta_at(symbol, digits, bias)?;
        // The Rust crate decodes into 128 characters. It prints a longer name undecoded.
        if characters.is_full() {
            return None;
        }
        let count = characters.len() as u64 + 1;
        n += (i + delta) / count;
        i = (i + delta) % count;
        let c = char::from_u32(n as u32)?;
        characters.insert(i as usize, c);
        i += 1;
        bias = adapt(delta, count, first);
        first = false;
        at = next;
    }
    Some(characters)
}
