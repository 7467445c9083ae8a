// Made from crates/demangle_legacy/src/hexadecimal.rt by packaging/crate/erase.py: edit that file instead.
//! Recognizes sixteen hexadecimal digits at once.

use crate::demangle_symbol::cursor::WINDOW;

/// Returns 0 exactly if a byte is a hexadecimal digit of either case.
// Vector instructions have the subtraction that stops at 0, and the minimum, but no comparison of
// bytes without a sign.
#[cfg_attr(not(debug_assertions), inline(always))]
fn distance(byte: u8) -> u8 {
    // A digit differs from `0` in the lowest four bits, and a letter from its other case in one.
    let digit = (byte ^ b'0').saturating_sub(9);
    let letter = (byte | 0x20).wrapping_sub(b'a').saturating_sub(5);
    digit.min(letter)
}

/// Returns `true` if all bytes are hexadecimal digits of either case.
#[cfg_attr(not(debug_assertions), inline(always))]
pub(super) fn are_hexadecimal(bytes: &[u8; WINDOW]) -> bool {
    // The compiler vectorizes the loop.
    let mut any = 0;
    for part in bytes.iter().take(WINDOW) {
        any |= distance(*part);
    }
    any == 0
}
