// Made from crates/demangle_symbol/src/cursor/primitives.rt by packaging/crate/erase.py: edit that file instead.
//! Reads the primitives of a v0 symbol that are numbers, letters and back references.

use crate::demangle_symbol::cursor::{ParseError, Symbol, append_digit};

/// The greatest depth to which productions of a symbol may be nested.
pub const MAX_DEPTH: u32 = 500;

/// The number of digits that are read without an overflow check. 62^10 is below 2^60.
const UNCHECKED_DIGITS: usize = 10;

/// An integer of eleven digits fits if its first digit is below this. 21 * 62^10 is below 2^64 - 2.
const FITTING_FIRST: u64 = 21;

impl<'s> Symbol<'s> {
    /// Reads an integer in base 62 and returns it with the place after it.
    ///
    /// # Errors
    ///
    /// Returns `Invalid` if no integer is spelled there, or if the integer is 2^64 or more.
    #[inline(never)]
    pub fn integer_62(&self, place: usize) -> Result<(u64, usize), ParseError> {
        // `_` alone is 0, so the digits spell one less than the integer.
        let Some(first) = self.integer_digit(place)? else {
            return Ok((0, place + 1));
        };
        let mut number = first;
        // The number of iterations does not depend on the place, so the compiler can unroll them.
        // Each digit read finds the end of the symbol itself.
        for step in 1..UNCHECKED_DIGITS {
            let at = place + step;
            let Some(digit) = self.integer_digit(at)? else {
                return Ok((number + 1, at + 1));
            };
            number = number * 62 + digit;
        }
        for at in place + UNCHECKED_DIGITS..self.len() {
            let Some(digit) = self.integer_digit(at)? else {
                let Some(value) = number.checked_add(1) else {
                    return Err(ParseError::Invalid);
                };
                return Ok((value, at + 1));
            };
            let Some(sum) = append_digit(number, 62, digit as u8) else {
                return Err(ParseError::Invalid);
            };
            number = sum;
        }
        Err(ParseError::Invalid)
    }

    /// Reads a digit of an integer. Returns `None` if the byte is the `_` that ends the integer,
    /// and `Invalid` if it is any other byte.
    #[cfg_attr(not(debug_assertions), inline(always))]
    fn integer_digit(&self, place: usize) -> Result<Option<u64>, ParseError> {
        let Some(byte) = self.byte(place) else {
            return Err(ParseError::Invalid);
        };
        // Digits are tested first, since an integer has up to eleven of them and one end. The end
        // is recognized by its byte: a test by the table would be moved before the test of the
        // digits.
        let digit = digit_62_of(byte);
        if digit < 62 {
            return Ok(Some(u64::from(digit)));
        }
        if byte == b'_' {
            return Ok(None);
        }
        Err(ParseError::Invalid)
    }

    /// Reads an optional integer and returns it with the place after it. The value is the integer
    /// after the tag plus one, or 0 without the tag.
    ///
    /// # Errors
    ///
    /// Returns `Invalid` if the tag has no integer after it, or if the sum is 2^64 or more.
    #[cfg_attr(not(debug_assertions), inline(always))]
    pub fn opt_integer_62(&self, tag: u8, place: usize) -> Result<(u64, usize), ParseError> {
        if !self.is_at(tag, place) {
            return Ok((0, place));
        }
        self.integer_after_tag(place + 1)
    }

    /// Reads the integer after a tag. Returns the integer plus one, and the place after it. Returns
    /// `Invalid` if no integer is spelled there, or if the sum is 2^64 or more.
    // The function is separate since memory for the call's result is cleared at its start, and most
    // names have no tag.
    #[cfg_attr(not(debug_assertions), inline(always))]
    fn integer_after_tag(&self, place: usize) -> Result<(u64, usize), ParseError> {
        let Ok((number, next)) = self.integer_62(place) else {
            return Err(ParseError::Invalid);
        };
        // A missing tag means 0, so an integer after the tag counts from 1.
        let Some(value) = number.checked_add(1) else {
            return Err(ParseError::Invalid);
        };
        Ok((value, next))
    }

    /// Returns the place after a disambiguator, which gets no value.
    ///
    /// # Errors
    ///
    /// Returns `Invalid` if the tag `s` has no integer after it, or if the disambiguator is 2^64 or
    /// more.
    #[cfg_attr(not(debug_assertions), inline(always))]
    pub fn after_disambiguator(&self, place: usize) -> Result<usize, ParseError> {
        if !self.is_at(b's', place) {
            return Ok(place);
        }
        self.after_tag(place + 1)
    }

    /// Reads a disambiguator and returns it with the place after it. It is 0 if the tag `s` is
    /// missing. If it is not needed, it gets no value, and 0 is returned in its place.
    ///
    /// # Errors
    ///
    /// Returns `Invalid` if the tag has no integer after it, or if the disambiguator is 2^64 or
    /// more.
    #[cfg_attr(not(debug_assertions), inline(always))]
    pub fn disambiguator_if(
        &self,
        is_needed: bool,
        place: usize,
    ) -> Result<(u64, usize), ParseError> {
        if !self.is_at(b's', place) {
            return Ok((0, place));
        }
        if is_needed {
            return self.integer_after_tag(place + 1);
        }
        let Ok(next) = self.after_tag(place + 1) else {
            return Err(ParseError::Invalid);
        };
        Ok((0, next))
    }

    /// Returns the place after the integer after a tag. Returns `Invalid` as `integer_after_tag`
    /// does.
    // It is separate for the same reason as `integer_after_tag`.
    #[cfg_attr(not(debug_assertions), inline(always))]
    fn after_tag(&self, place: usize) -> Result<usize, ParseError> {
        let Some(next) = self.after_integer(place) else {
            return Err(ParseError::Invalid);
        };
        Ok(next)
    }

    /// Returns the place after the integer after a tag. Returns `None` if no integer is spelled
    /// there, or if the integer plus one is 2^64 or more.
    #[inline(never)]
    fn after_integer(&self, place: usize) -> Option<usize> {
        match self.integer_digit(place) {
            Ok(Some(first)) => self.after_first_digit(first, place),
            Ok(None) => Some(place + 1),
            Err(_) => None,
        }
    }

    /// Does the same as `after_integer` for an integer whose first digit was read.
    // Hashes of crates have ten or eleven digits. The symbol is cut at the first digit, so its
    // length is tested once. The loop has a constant number of iterations. So the compiler unrolls
    // it and drops the test of each place.
    #[cfg_attr(not(debug_assertions), inline(always))]
    fn after_first_digit(&self, first: u64, place: usize) -> Option<usize> {
        let rest = self.cut_at_digit(place);
        if rest.len() < UNCHECKED_DIGITS + 2 {
            return self.after_checked_integer(place);
        }
        for step in 0..UNCHECKED_DIGITS - 1 {
            match rest.integer_digit(step + 1) {
                Ok(Some(_)) => (),
                Ok(None) => return Some(place + step + 2),
                Err(_) => return None,
            }
        }
        match rest.integer_digit(UNCHECKED_DIGITS) {
            Ok(Some(_)) => (),
            Ok(None) => return Some(place + UNCHECKED_DIGITS + 1),
            Err(_) => return None,
        }
        if first < FITTING_FIRST && rest.is_at(b'_', UNCHECKED_DIGITS + 1) {
            return Some(place + UNCHECKED_DIGITS + 2);
        }
        self.after_checked_integer(place)
    }

    /// Returns the symbol's bytes from a digit on.
    #[cfg_attr(not(debug_assertions), inline(always))]
    fn cut_at_digit(&self, place: usize) -> Symbol<'s> {
        Symbol {
            inner: &self.inner[place..],
        }
    }

    /// Does the same as `after_integer`, and computes the integer to check that it fits.
    #[inline(never)]
    fn after_checked_integer(&self, place: usize) -> Option<usize> {
        let mut number: u64 = 0;
        for at in place..self.len() {
            let digit = match self.integer_digit(at) {
                Ok(Some(digit)) => digit,
                Ok(None) => {
                    // The integer is one more than its digits spell, and has one added.
                    if number > u64::MAX - 2 {
                        return None;
                    }
                    return Some(at + 1);
                }
                Err(_) => return None,
            };
            let longer = append_digit(number, 62, digit as u8)?;
            number = longer;
        }
        None
    }

    /// Reads a byte and returns it with the place after it.
    ///
    /// # Errors
    ///
    /// Returns `Invalid` at the end of the symbol.
    pub fn tag(&self, place: usize) -> Result<(u8, usize), ParseError> {
        let Some(byte) = self.byte(place) else {
            return Err(ParseError::Invalid);
        };
        Ok((byte, place + 1))
    }

    /// Reads the letter of a namespace and returns it with the place after it.
    ///
    /// # Errors
    ///
    /// Returns `Invalid` if the byte is not an ASCII letter.
    pub fn namespace(&self, place: usize) -> Result<(u8, usize), ParseError> {
        match self.byte(place) {
            Some(b) if b.is_ascii_alphabetic() => Ok((b, place + 1)),
            _ => Err(ParseError::Invalid),
        }
    }

    /// Reads a back reference whose `B` is directly before `place`. Returns its target and the
    /// place after it. `depth` is the depth of the reference.
    ///
    /// # Errors
    ///
    /// Returns `Invalid` if no integer is spelled there, or if the target is not before the `B`.
    /// Otherwise returns `RecursedTooDeep` if `depth` is the greatest depth.
    #[cfg_attr(not(debug_assertions), inline(always))]
    pub fn backref(&self, place: usize, depth: u32) -> Result<(usize, usize), ParseError> {
        let (target, next) = self.integer_62(place)?;
        // A back reference may only name a place before its `B`, so references cannot form a cycle.
        // The target is checked before the depth. So an invalid target is `Invalid` at any depth.
        if target >= place as u64 - 1 {
            return Err(ParseError::Invalid);
        }
        if depth == MAX_DEPTH {
            return Err(ParseError::RecursedTooDeep);
        }
        Ok((target as usize, next))
    }

    /// Returns the place after an optional byte.
    pub fn skip(&self, byte: u8, place: usize) -> usize {
        if self.is_at(byte, place) {
            place + 1
        } else {
            place
        }
    }
}

/// The value of each digit in base 62, and 255 for every other byte.
#[rustfmt::skip]
static DIGITS_62: [u8; 256] = [
    255, 255, 255, 255, 255, 255, 255, 255, 255, 255, 255, 255, 255, 255, 255, 255,
    255, 255, 255, 255, 255, 255, 255, 255, 255, 255, 255, 255, 255, 255, 255, 255,
    255, 255, 255, 255, 255, 255, 255, 255, 255, 255, 255, 255, 255, 255, 255, 255,
    0, 1, 2, 3, 4, 5, 6, 7, 8, 9, 255, 255, 255, 255, 255, 255,
    255, 36, 37, 38, 39, 40, 41, 42, 43, 44, 45, 46, 47, 48, 49, 50,
    51, 52, 53, 54, 55, 56, 57, 58, 59, 60, 61, 255, 255, 255, 255, 255,
    255, 10, 11, 12, 13, 14, 15, 16, 17, 18, 19, 20, 21, 22, 23, 24,
    25, 26, 27, 28, 29, 30, 31, 32, 33, 34, 35, 255, 255, 255, 255, 255,
    255, 255, 255, 255, 255, 255, 255, 255, 255, 255, 255, 255, 255, 255, 255, 255,
    255, 255, 255, 255, 255, 255, 255, 255, 255, 255, 255, 255, 255, 255, 255, 255,
    255, 255, 255, 255, 255, 255, 255, 255, 255, 255, 255, 255, 255, 255, 255, 255,
    255, 255, 255, 255, 255, 255, 255, 255, 255, 255, 255, 255, 255, 255, 255, 255,
    255, 255, 255, 255, 255, 255, 255, 255, 255, 255, 255, 255, 255, 255, 255, 255,
    255, 255, 255, 255, 255, 255, 255, 255, 255, 255, 255, 255, 255, 255, 255, 255,
    255, 255, 255, 255, 255, 255, 255, 255, 255, 255, 255, 255, 255, 255, 255, 255,
    255, 255, 255, 255, 255, 255, 255, 255, 255, 255, 255, 255, 255, 255, 255, 255,
];

/// Returns the value of a digit in base 62, and 62 or more for any other byte.
#[cfg_attr(not(debug_assertions), inline(always))]
fn digit_62_of(byte: u8) -> u8 {
    DIGITS_62[usize::from(byte)]
}
