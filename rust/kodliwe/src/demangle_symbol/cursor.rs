// Made from crates/demangle_symbol/src/cursor.rt by packaging/crate/erase.py: edit that file instead.
//! Access to the bytes of a symbol.

use crate::demangle_sink::{SinkRefused, SizeLimitedFmtAdapter, TextSink};

use core::str;

mod hex;
mod ident;
mod primitives;
mod window;

pub(crate) use hex::nibble_of;
pub use ident::Ident;

pub use primitives::MAX_DEPTH;
pub use window::WINDOW;

/// The reason for which a symbol could not be parsed. The variants have the names of the Rust
/// crate.
#[derive(Clone, Copy, Debug, PartialEq, Eq)]
pub enum ParseError {
    Invalid,
    RecursedTooDeep,
}

/// A part of a symbol: the bytes from place `from` up to, but without, place `to`.
#[derive(Clone, Copy, Debug, PartialEq, Eq)]
pub struct Part {
    pub from: usize,
    pub to: usize,
}

/// The bytes of a symbol after the prefix of its mangling scheme.
#[derive(Clone, Copy)]
pub struct Symbol<'s> {
    inner: &'s str,
}

/// The text of a part of a symbol. It can only be put into a sink.
#[derive(Clone, Copy)]
pub struct Span<'s> {
    text: &'s str,
}

impl<'s> Span<'s> {
    /// Puts the text into a sink as one piece.
    ///
    /// # Errors
    ///
    /// Returns `SinkRefused` if the sink or the size limit rejects the piece.
    #[cfg_attr(not(debug_assertions), inline(always))]
    pub fn write_to<S: TextSink>(
        &self,
        out: &mut SizeLimitedFmtAdapter<'_, S>,
    ) -> Result<(), SinkRefused> {
        out.put(self.text)
    }
}

impl<'s> Symbol<'s> {
    /// Returns the symbol that has these bytes after its prefix.
    pub fn new(inner: &'s str) -> Symbol<'s> {
        Symbol { inner }
    }

    /// Returns the number of bytes.
    pub fn len(&self) -> usize {
        self.inner.len()
    }

    /// Returns the byte at a place, or `None` after the end.
    pub fn byte(&self, place: usize) -> Option<u8> {
        self.inner.as_bytes().get(place).copied()
    }

    /// Returns `true` if all bytes are ASCII.
    pub fn is_ascii(&self) -> bool {
        let mut all = true;
        for at in 0..self.len() {
            let Some(byte) = self.byte(at) else {
                return false;
            };
            all &= byte < 128;
        }
        all
    }

    /// Returns the text of a part, to be put into a sink.
    #[cfg_attr(not(debug_assertions), inline(always))]
    pub fn span(&self, part: Part) -> Span<'s> {
        let bytes = &self.inner.as_bytes()[part.from..part.to];
        // SAFETY: the symbol is ASCII, and so is each part of it.
        let text = unsafe { str::from_utf8_unchecked(bytes) };
        Span { text }
    }

    /// Returns `true` if the byte at a place is `byte`.
    pub fn is_at(&self, byte: u8, place: usize) -> bool {
        match self.byte(place) {
            Some(b) => b == byte,
            None => false,
        }
    }

    /// Reads a decimal number and returns it with the place after its digits.
    ///
    /// # Errors
    ///
    /// Returns `Invalid` if there is no digit at the place, or if a `usize` cannot hold the number.
    #[cfg_attr(not(debug_assertions), inline(always))]
    pub fn decimal(&self, place: usize) -> Result<(usize, usize), ParseError> {
        let Some(first) = self.digit(place) else {
            return Err(ParseError::Invalid);
        };
        // Most lengths are below 100, so two digits are read without a loop.
        let one = usize::from(first);
        let Some(second) = self.digit(place + 1) else {
            return Ok((one, place + 1));
        };
        let two = one * 10 + usize::from(second);
        let Some(third) = self.digit(place + 2) else {
            return Ok((two, place + 2));
        };
        self.decimal_from(two * 10 + usize::from(third), place, place + 3)
    }

    /// Reads the remaining digits of a decimal number and returns it with the place after them. The
    /// number starts at `start`, and its digits before `from` have the value `number`.
    #[cfg_attr(not(debug_assertions), inline(always))]
    fn decimal_from(
        &self,
        number: usize,
        start: usize,
        from: usize,
    ) -> Result<(usize, usize), ParseError> {
        let mut number = number;
        for at in from..self.len() {
            let Some(digit) = self.digit(at) else {
                if at == start {
                    return Err(ParseError::Invalid);
                }
                return Ok((number, at));
            };
            // If a `usize` cannot hold the number, that is an error, as in the Rust crate. The
            // number never wraps to a small one.
            let Some(sum) = append_decimal(number, digit) else {
                return Err(ParseError::Invalid);
            };
            number = sum;
        }
        let end = self.len();
        if end <= start {
            return Err(ParseError::Invalid);
        }
        Ok((number, end))
    }

    /// Returns the value of the decimal digit at a place, or `None` if another byte or the end is
    /// there.
    #[cfg_attr(not(debug_assertions), inline(always))]
    fn digit(&self, place: usize) -> Option<u8> {
        match self.byte(place) {
            Some(byte @ b'0'..=b'9') => Some(byte - b'0'),
            _ => None,
        }
    }
}

/// Returns the number with this digit appended in a base, or `None` if it does not fit 64 bits.
pub(crate) fn append_digit(number: u64, base: u64, digit: u8) -> Option<u64> {
    number.checked_mul(base)?.checked_add(u64::from(digit))
}

/// Returns the number with this decimal digit appended, or `None` if a `usize` cannot hold it.
#[cfg_attr(not(debug_assertions), inline(always))]
fn append_decimal(number: usize, digit: u8) -> Option<usize> {
    number.checked_mul(10)?.checked_add(usize::from(digit))
}
