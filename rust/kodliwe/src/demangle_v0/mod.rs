// Made from crates/demangle_v0/src/lib.rt by packaging/crate/erase.py: edit that file instead.
//! v0 symbols (RFC 2603): a prefix, one path or two, then a suffix.

#[cfg(feature = "stream")]
use crate::demangle_sink::{SinkRefused, SizeLimitedFmtAdapter, TextSink};
use crate::demangle_symbol::cursor::{ParseError, Symbol};
#[cfg(feature = "stream")]
use crate::demangle_symbol::form::Form;
#[cfg(feature = "stream")]
use crate::demangle_v0::stacks::SHORT_STACK;
#[cfg(feature = "stream")]
use crate::demangle_v0::validation::print_to_suffix;
use crate::demangle_v0::validation::{begins_path, suffix_at};
#[cfg(feature = "stream")]
use crate::demangle_v0_parser::frames::UNUSED_FRAME;
#[cfg(feature = "stream")]
use crate::demangle_v0_parser::fuel::Fuel;
#[cfg(feature = "stream")]
use crate::demangle_v0_parser::parse::Parser;
#[cfg(feature = "stream")]
use crate::demangle_v0_tokens::source::Source;

mod held_texts;
mod printer;
mod reading;
mod skip;
mod stacks;
mod validation;
mod value;

pub use value::Demangle;

/// Returns the text after the prefix of a v0 symbol, or `None` without such a prefix.
fn inner_of(s: &str) -> Option<&str> {
    if let Some(inner) = s.strip_prefix("_R") {
        return Some(inner);
    }
    // On Windows, dbghelp strips the leading underscore.
    if let Some(inner) = s.strip_prefix("R") {
        return Some(inner);
    }
    // On macOS, symbols have one underscore more.
    s.strip_prefix("__R")
}

/// Returns the text as a symbol, if it is ASCII and has a prefix of the v0 scheme. Otherwise it
/// returns `None`. No path is read: the first one prints up to its first syntax error.
pub fn ascii_symbol(s: &str) -> Option<Demangle<'_>> {
    let text = Symbol::new(s);
    if !text.is_ascii() {
        return None;
    }
    inner_of(s).map(|inner| Demangle::new(Symbol::new(inner)))
}

/// Returns the text after the prefix of a v0 symbol, if it is ASCII, and otherwise `None`. This is
/// not tested if `is_ascii` says that the text is known to be ASCII.
fn ascii_inner_of(s: &str, is_ascii: bool) -> Option<&str> {
    let inner = inner_of(s)?;
    if is_ascii {
        return Some(inner);
    }
    if !Symbol::new(inner).is_ascii() {
        return None;
    }
    Some(inner)
}

/// Reads a v0 symbol. Returns the symbol and the suffix after its paths. `is_ascii` says that the
/// text is known to be ASCII.
///
/// Fails if the prefix is missing, the text is not ASCII, or a path is missing or has an error.
pub fn demangle(s: &str, is_ascii: bool) -> Result<(Demangle<'_>, &str), ParseError> {
    let Some(inner) = ascii_inner_of(s, is_ascii) else {
        return Err(ParseError::Invalid);
    };
    let symbol = Symbol::new(inner);
    if !begins_path(&symbol, 0) {
        return Err(ParseError::Invalid);
    }
    let Some(end) = suffix_at(&symbol) else {
        return Err(ParseError::Invalid);
    };
    Ok((Demangle::new(symbol), &inner[end..]))
}

/// What is known of a text whose first path was printed before it was known to be a symbol.
#[cfg(feature = "stream")]
#[derive(Clone, Copy)]
pub enum Printed<'s> {
    /// The text is this symbol with this suffix, and its first path was printed.
    Symbol(Demangle<'s>, &'s str),
    /// The text is not a symbol. A path may be printed.
    NoSymbol,
    /// The first path was not printed to its end, so nothing is known of the text.
    Unknown,
}

/// A print of a path before the text was known to be a symbol.
#[cfg(feature = "stream")]
#[derive(Clone, Copy)]
pub struct FirstPrint<'s> {
    pub printed: Printed<'s>,
    /// How much fuel the references of the path used up.
    pub fuel: usize,
}

/// Prints the first path of a v0 symbol before the text is known to be one: in a form with hashes
/// or without them, and with its generic arguments or with `_` for them. Returns what is known of
/// the text then, which must be ASCII.
///
/// If the path has few references, the text is read once. Otherwise the print gives up when its
/// fuel is used up, or at the first reference for which more bytes may be read again than the
/// adapter allows.
#[cfg(feature = "stream")]
pub fn print_first<'s, S: TextSink>(
    s: &'s str,
    out: &mut SizeLimitedFmtAdapter<'_, S>,
    form: Form,
) -> FirstPrint<'s> {
    let Some(inner) = ascii_inner_of(s, true) else {
        return FirstPrint {
            printed: Printed::NoSymbol,
            fuel: 0,
        };
    };
    let symbol = Symbol::new(inner);
    if !begins_path(&symbol, 0) {
        return FirstPrint {
            printed: Printed::NoSymbol,
            fuel: 0,
        };
    }
    let source = Source {
        symbol: &symbol,
        form,
    };
    let mut memory = [UNUSED_FRAME; SHORT_STACK];
    let mut parser = Parser::at_path(source, 0, &mut memory);
    parser.fuel = Fuel::for_first_print();
    let end = print_to_suffix(&mut parser, out);

    let fuel = parser.fuel.used;
    match end {
        Ok(Some(end)) => {
            let printed = Printed::Symbol(Demangle::new(symbol), &inner[end..]);
            FirstPrint { printed, fuel }
        }
        Ok(None) => {
            let printed = Printed::NoSymbol;
            FirstPrint { printed, fuel }
        }
        Err(SinkRefused) => {
            let printed = Printed::Unknown;
            FirstPrint { printed, fuel }
        }
    }
}
