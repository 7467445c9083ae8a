// Made from crates/kodliwe_program/src/about.rt by packaging/crate/erase.py: edit that file instead.
//! The texts about the program that its options print.

use crate::kodliwe_program::embedded::{BASH, FISH, MANUAL, ZSH};
use crate::kodliwe_program::help::HELP;
use crate::kodliwe_program::version::VERSION;
use std::io;
use std::io::Write;

/// A shell that can complete the options.
#[derive(Clone, Copy)]
pub enum Shell {
    Bash,
    Zsh,
    Fish,
}

/// A text about the program.
#[derive(Clone, Copy)]
pub enum About {
    Help,
    Version,
    Manual,
    Completions(Shell),
}

impl About {
    /// Returns the text.
    fn text(self) -> &'static str {
        match self {
            About::Help => HELP,
            About::Version => VERSION,
            About::Manual => MANUAL,
            About::Completions(Shell::Bash) => BASH,
            About::Completions(Shell::Zsh) => ZSH,
            About::Completions(Shell::Fish) => FISH,
        }
    }

    /// Writes the text. Fails if the writer fails.
    pub fn write<W: Write>(self, output: &mut W) -> io::Result<()> {
        output.write_all(self.text().as_bytes())
    }
}
