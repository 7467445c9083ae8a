// Made from crates/demangle_v0_tokens/src/read/constants.rt by packaging/crate/erase.py: edit that file instead.
//! Reads the values of constants.

use crate::demangle_v0_tokens::fixed_texts::FixedText;
use crate::demangle_v0_tokens::read::{TokenOutcome, TokenReader, invalid_token, token_read};
use crate::demangle_v0_tokens::token::Token;

use crate::demangle_symbol::literal::{bool_of, character_of, is_string};

impl TokenReader<'_> {
    /// Reads a number, by its nibbles.
    #[cfg_attr(not(debug_assertions), inline(always))]
    pub(super) fn read_number(&self, place: usize) -> TokenOutcome {
        let Ok((part, next)) = self.symbol.hex_nibbles(place) else {
            return invalid_token();
        };
        let number = self.symbol.hex_number(part);
        token_read(Token::Number(number, part, self.tag), next)
    }

    /// Reads `false` or `true`, by its nibbles.
    #[cfg_attr(not(debug_assertions), inline(always))]
    pub(super) fn read_bool(&self, place: usize) -> TokenOutcome {
        let Ok((part, next)) = self.symbol.hex_nibbles(place) else {
            return invalid_token();
        };
        match bool_of(self.symbol.hex_number(part)) {
            Some(false) => token_read(Token::Fixed(FixedText::False), next),
            Some(true) => token_read(Token::Fixed(FixedText::True), next),
            None => invalid_token(),
        }
    }

    /// Reads a character, by the nibbles of its code.
    #[cfg_attr(not(debug_assertions), inline(always))]
    pub(super) fn read_character(&self, place: usize) -> TokenOutcome {
        let Ok((part, next)) = self.symbol.hex_nibbles(place) else {
            return invalid_token();
        };
        match character_of(self.symbol.hex_number(part)) {
            Some(c) => token_read(Token::Character(c), next),
            None => invalid_token(),
        }
    }

    /// Reads a string, by the nibbles of its UTF-8 bytes.
    #[cfg_attr(not(debug_assertions), inline(always))]
    pub(super) fn read_literal(&self, place: usize) -> TokenOutcome {
        let Ok((part, next)) = self.symbol.hex_nibbles(place) else {
            return invalid_token();
        };
        if !is_string(self.symbol, part) {
            return invalid_token();
        }
        token_read(Token::StrLiteral(part), next)
    }
}
