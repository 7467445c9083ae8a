// Made from crates/demangle_symbol/src/cursor/ident.rt by packaging/crate/erase.py: edit that file instead.
//! Reads the identifiers of a v0 symbol.

use crate::demangle_symbol::cursor::{ParseError, Part, Symbol};

/// The two parts of a name. A name without Punycode has an empty Punycode part.
#[derive(Clone, Copy, Debug, PartialEq, Eq)]
pub struct Ident {
    pub ascii: Part,
    pub punycode: Part,
}

impl<'s> Symbol<'s> {
    /// Reads the length of an identifier and returns it with the place after its digits.
    #[cfg_attr(not(debug_assertions), inline(always))]
    fn length(&self, place: usize) -> Result<(usize, usize), ParseError> {
        // The grammar has no leading zeros. So a first `0` is the whole length, and digits after it
        // belong to the name.
        if self.is_at(b'0', place) {
            return Ok((0, place + 1));
        }
        self.decimal(place)
    }

    /// Returns the place after the last `_` of a part, or the start of the part if it has no `_`.
    fn tail(&self, from: usize, to: usize) -> usize {
        for at in (from..to).rev() {
            if self.is_at(b'_', at) {
                return at + 1;
            }
        }
        from
    }

    /// Reads an identifier and returns it with the place after it.
    ///
    /// # Errors
    ///
    /// Returns `Invalid` if there is no length, if the length exceeds the symbol, or if a `u` is
    /// present and its Punycode part is empty.
    #[cfg_attr(not(debug_assertions), inline(always))]
    pub fn ident(&self, place: usize) -> Result<(Ident, usize), ParseError> {
        if self.is_at(b'u', place) {
            return self.punycode_copy(place);
        }
        let Ok((len, digits_end)) = self.length(place) else {
            return Err(ParseError::Invalid);
        };
        let from = self.skip(b'_', digits_end);
        if self.len() - from < len {
            return Err(ParseError::Invalid);
        }
        let to = from + len;
        let name = Ident {
            ascii: Part { from, to },
            punycode: Part { from: to, to },
        };
        Ok((name, to))
    }

    /// Reads an identifier that starts with `u` and returns a copy of it, with the place after it.
    /// The `u` was looked at before. Returns `Invalid` if no identifier is spelled there.
    // The copy frees other names from the memory to which that call writes its result. The function
    // is separate since that memory is cleared at its start.
    #[cfg_attr(not(debug_assertions), inline(always))]
    fn punycode_copy(&self, place: usize) -> Result<(Ident, usize), ParseError> {
        let Ok((name, to)) = self.punycode_ident(place) else {
            return Err(ParseError::Invalid);
        };
        let copy = Ident {
            ascii: name.ascii,
            punycode: name.punycode,
        };
        Ok((copy, to))
    }

    /// Reads an identifier that starts with `u` and returns it with the place after it. The `u` was
    /// looked at before. Returns `Invalid` if no identifier is spelled there.
    // Few identifiers have a `u`. A separate function keeps the code for the others short.
    #[inline(never)]
    fn punycode_ident(&self, place: usize) -> Result<(Ident, usize), ParseError> {
        let Ok((len, digits_end)) = self.length(place + 1) else {
            return Err(ParseError::Invalid);
        };
        let from = self.skip(b'_', digits_end);
        if self.len() - from < len {
            return Err(ParseError::Invalid);
        }
        let to = from + len;
        let tail = self.tail(from, to);
        // A name must not have an empty Punycode part. Such a name is spelled without the `u`.
        if tail == to {
            return Err(ParseError::Invalid);
        }
        // The `_` between the two parts replaces the `-` of RFC 3492. It belongs to neither part.
        let ascii_end = if tail == from { from } else { tail - 1 };
        let name = Ident {
            ascii: Part {
                from,
                to: ascii_end,
            },
            punycode: Part { from: tail, to },
        };
        Ok((name, to))
    }
}
