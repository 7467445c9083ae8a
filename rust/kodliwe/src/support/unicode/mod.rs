//! The properties of characters that literals need, with the interface of the kit's crate
//! `unicode`.
#[rustfmt::skip]
mod tables;

/// The properties.
pub mod properties {
    use super::tables::{
        CATEGORIES_LASTS, CATEGORIES_NUMBERS, CATEGORIES_PLANES, GRAPHEME_EXTEND_LASTS,
        GRAPHEME_EXTEND_PLANES,
    };

    /// The general categories whose characters are escaped, and `Other` for the rest.
    #[derive(Clone, Copy, Debug, PartialEq, Eq)]
    pub enum GeneralCategory {
        Other,
        SpaceSeparator,
        LineSeparator,
        ParagraphSeparator,
        Control,
        Format,
        Surrogate,
        PrivateUse,
        Unassigned,
    }

    impl GeneralCategory {
        /// Returns the category of a character.
        pub fn for_char(c: char) -> GeneralCategory {
            let run = run_of(&CATEGORIES_LASTS, &CATEGORIES_PLANES, c);
            // A byte has the numbers of two runs.
            match CATEGORIES_NUMBERS[run / 2] >> (4 * (run % 2)) & 0xF {
                1 => GeneralCategory::SpaceSeparator,
                2 => GeneralCategory::LineSeparator,
                3 => GeneralCategory::ParagraphSeparator,
                4 => GeneralCategory::Control,
                5 => GeneralCategory::Format,
                6 => GeneralCategory::Surrogate,
                7 => GeneralCategory::PrivateUse,
                8 => GeneralCategory::Unassigned,
                _ => GeneralCategory::Other,
            }
        }
    }

    /// Returns whether a character has the property `Grapheme_Extend`.
    pub fn is_grapheme_extend(c: char) -> bool {
        // The runs with the property and those without it follow one another by turns.
        run_of(&GRAPHEME_EXTEND_LASTS, &GRAPHEME_EXTEND_PLANES, c) % 2 == 1
    }

    /// Returns the run of characters that a character is in.
    ///
    /// `lasts` has the last code point of each run, without its plane. `planes` has for each plane
    /// the first run that ends in it or after it.
    fn run_of(lasts: &[u16], planes: &[u16], c: char) -> usize {
        let [_, plane, high, low] = u32::from(c).to_be_bytes();
        let (last, plane) = (u16::from_be_bytes([high, low]), usize::from(plane));
        let (start, end) = (usize::from(planes[plane]), usize::from(planes[plane + 1]));
        start + lasts[start..end].partition_point(|other| *other < last)
    }
}
