// Made from crates/demangle_value/src/value.rt by packaging/crate/erase.py: edit that file instead.
//! A demangled symbol, and how it is read.

pub mod printing;

use crate::demangle_sink::{SinkRefused, SizeLimitedFmtAdapter, TextSink};
use crate::demangle_symbol::cursor::Symbol;
use crate::demangle_value::format::TextFormat;
use crate::demangle_value::strip::without_thin_lto;

/// The scheme of a symbol, and its parsed form.
#[derive(Clone, Copy)]
pub(crate) enum DemangleStyle<'a> {
    Legacy(crate::demangle_legacy::Demangle<'a>),
    V0(crate::demangle_v0::Demangle<'a>),
}

impl DemangleStyle<'_> {
    /// Prints the symbol without its suffix. The limit is that of the adapter. Fails if the sink or
    /// the limit rejects a piece.
    fn write_to<S: TextSink>(
        &self,
        out: &mut SizeLimitedFmtAdapter<'_, S>,
        format: TextFormat,
    ) -> Result<(), SinkRefused> {
        match self {
            DemangleStyle::Legacy(symbol) => symbol.write_to(out, format.form),
            DemangleStyle::V0(symbol) => symbol.write_to(out, format.form),
        }
    }
}

/// A text that is demangled if it is a Rust symbol. It prints the path that the symbol names. A
/// text that is not a symbol prints unchanged.
#[derive(Clone, Copy)]
pub struct Demangle<'a> {
    style: Option<DemangleStyle<'a>>,
    original: &'a str,
    suffix: &'a str,
}

impl<'a> Demangle<'a> {
    /// Returns the original symbol without the suffix that ThinLTO appends.
    pub fn as_str(&self) -> &'a str {
        self.original
    }

    /// Returns the number of bytes before the symbol's suffix, or 0 if the text is not a symbol.
    ///
    /// `write_with_path_len` uses it to print the symbol without parsing the end of its path again.
    pub fn path_len(&self) -> usize {
        match &self.style {
            Some(_) => self.original.len() - self.suffix.len(),
            None => 0,
        }
    }
}

/// Returns whether a byte is a printable ASCII character other than a space.
fn is_graphic(byte: u8) -> bool {
    matches!(byte, 0x21..=0x7E)
}

/// Returns whether a suffix is allowed: empty, or `.` followed only by graphic characters.
pub(crate) fn is_allowed(suffix: &str) -> bool {
    let symbol = Symbol::new(suffix);
    if symbol.len() == 0 {
        return true;
    }
    if !symbol.is_at(b'.', 0) {
        return false;
    }
    for at in 1..symbol.len() {
        let Some(byte) = symbol.byte(at) else {
            return false;
        };
        if !is_graphic(byte) {
            return false;
        }
    }
    true
}

/// Parses a text in one of the schemes, and returns the symbol and the rest of the text. Returns
/// `None` if neither scheme accepts it. `is_ascii` says that the text is known to be ASCII.
fn read_style(text: &str, is_ascii: bool) -> Option<(DemangleStyle<'_>, &str)> {
    // No text has a prefix of both schemes, so the order does not change what is printed. The
    // prefixes of v0 are recognized from fewer bytes.
    if let Ok((symbol, suffix)) = crate::demangle_v0::demangle(text, is_ascii) {
        return Some((DemangleStyle::V0(symbol), suffix));
    }
    match crate::demangle_legacy::demangle(text, is_ascii) {
        Ok((symbol, suffix)) => Some((DemangleStyle::Legacy(symbol), suffix)),
        Err(()) => None,
    }
}

impl<'a> Demangle<'a> {
    /// Returns a text that is not a symbol.
    pub(crate) fn without_style(text: &'a str) -> Demangle<'a> {
        Demangle {
            style: None,
            original: text,
            suffix: "",
        }
    }

    /// Returns the symbol that a scheme parses a text to, or the text as it is if the suffix is not
    /// allowed.
    pub(crate) fn with_style(
        text: &'a str,
        style: DemangleStyle<'a>,
        suffix: &'a str,
        allowed: bool,
    ) -> Demangle<'a> {
        if !allowed {
            return Demangle::without_style(text);
        }
        Demangle {
            style: Some(style),
            original: text,
            suffix,
        }
    }

    /// Parses a text as a symbol, and keeps it as it is if it is not one. `is_ascii` says that it
    /// is known to be ASCII.
    pub(crate) fn read(text: &'a str, is_ascii: bool) -> Demangle<'a> {
        let Some((style, suffix)) = read_style(text, is_ascii) else {
            return Demangle::without_style(text);
        };
        let allowed = is_allowed(suffix);
        Demangle::with_style(text, style, suffix, allowed)
    }
}

// Free functions for the crate above, which does not export them. A method would be public there too.

/// Parses a run as a symbol. Keeps it as it is if it is not one. A run is ASCII.
pub fn read_run(run: &str) -> Demangle<'_> {
    Demangle::read(without_thin_lto(run), true)
}

/// Returns whether a text is a symbol.
pub fn has_style(text: &Demangle<'_>) -> bool {
    text.style.is_some()
}
