//! Writes a letter for each code point, as crates/character_tables does.
use std::io::{self, Write};
use unicode::properties::{is_grapheme_extend, GeneralCategory};

fn letter_of(code: u32) -> u8 {
    let Some(c) = char::from_u32(code) else {
        return b'G';
    };
    let category = match GeneralCategory::for_char(c) {
        GeneralCategory::Other => 0,
        GeneralCategory::SpaceSeparator => 1,
        GeneralCategory::LineSeparator => 2,
        GeneralCategory::ParagraphSeparator => 3,
        GeneralCategory::Control => 4,
        GeneralCategory::Format => 5,
        GeneralCategory::Surrogate => 6,
        GeneralCategory::PrivateUse => 7,
        GeneralCategory::Unassigned => 8,
    };
    category + if is_grapheme_extend(c) { b'J' } else { b'A' }
}

fn main() -> io::Result<()> {
    let letters: Vec<u8> = (0..0x11_0000).map(letter_of).collect();
    io::stdout().write_all(&letters)
}
