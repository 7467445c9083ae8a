// Made from crates/demangle_symbol/src/cursor/hex.rt by packaging/crate/erase.py: edit that file instead.
//! Reads the hexadecimal strings of a v0 symbol, and their numbers.

use crate::demangle_symbol::cursor::{ParseError, Part, Symbol};

/// The most nibbles that a number may have after its leading zeros.
pub const MAX_NIBBLES: usize = 32;

impl<'s> Symbol<'s> {
    /// Reads a hexadecimal string. Returns the part of its nibbles and the place after its `_`.
    ///
    /// # Errors
    ///
    /// Returns `Invalid` if another byte, or the end, comes before the `_`.
    #[inline(never)]
    pub fn hex_nibbles(&self, place: usize) -> Result<(Part, usize), ParseError> {
        for at in place..self.len() {
            let Some(byte) = self.byte(at) else {
                return Err(ParseError::Invalid);
            };
            if byte == b'_' {
                let nibbles = Part {
                    from: place,
                    to: at,
                };
                return Ok((nibbles, at + 1));
            }
            let Some(_) = nibble_of(byte) else {
                return Err(ParseError::Invalid);
            };
        }
        Err(ParseError::Invalid)
    }

    /// Returns the place after the leading zeros of a part.
    fn after_zeros(&self, part: Part) -> usize {
        for at in part.from..part.to {
            if !self.is_at(b'0', at) {
                return at;
            }
        }
        part.to
    }

    /// Returns the number that the nibbles of a hexadecimal string spell. Returns `None` if more
    /// than 32 nibbles follow the leading zeros.
    #[inline(never)]
    pub fn hex_number(&self, nibbles: Part) -> Option<u128> {
        // Leading zeros have no value, so a number may have any number of them.
        let start = self.after_zeros(nibbles);
        if nibbles.to - start > MAX_NIBBLES {
            return None;
        }
        let mut number: u128 = 0;
        for at in start..nibbles.to {
            let byte = self.byte(at)?;
            let digit = nibble_of(byte)?;
            number = number * 16 + u128::from(digit);
        }
        Some(number)
    }
}

/// Returns the value of a lower case hexadecimal digit, or `None` for any other byte.
pub(crate) fn nibble_of(byte: u8) -> Option<u8> {
    match byte {
        b'0'..=b'9' => Some(byte - b'0'),
        b'a'..=b'f' => Some(byte - b'a' + 10),
        _ => None,
    }
}
