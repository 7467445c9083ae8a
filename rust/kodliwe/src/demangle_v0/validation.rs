// Made from crates/demangle_v0/src/validation.rt by packaging/crate/erase.py: edit that file instead.
//! Validates v0 symbols: parses them without output, and finds the suffix.

#[cfg(feature = "stream")]
use crate::demangle_sink::{SinkRefused, SizeLimitedFmtAdapter, TextSink};
use crate::demangle_symbol::cursor::Symbol;
use crate::demangle_symbol::form::Form;
#[cfg(feature = "stream")]
use crate::demangle_v0::printer::{end_of_print, print_steps};
use crate::demangle_v0::reading::read_steps;
use crate::demangle_v0::stacks::{FULL_STACK, MIDDLE_STACK, SHORT_STACK};

use crate::demangle_v0_parser::frames::UNUSED_FRAME;
use crate::demangle_v0_parser::parse::Parser;
use crate::demangle_v0_parser::stops::ReadOutcome;
use crate::demangle_v0_tokens::source::Source;

/// Reads the rest in a stack with room for every frame. Returns the place after it, or `None`
/// after an error.
#[inline(never)]
fn read_in_full_stack(parser: &mut Parser<'_, '_>) -> Option<usize> {
    let mut memory = [UNUSED_FRAME; FULL_STACK];
    let mut larger = parser.in_larger_stack(&mut memory);
    let outcome = read_steps(&mut larger, 0);
    let end = larger.place();

    match outcome {
        ReadOutcome::Complete => end,
        // A stack with room for every frame is never full.
        ReadOutcome::StackFull | ReadOutcome::Failed => None,
    }
}

/// Reads the rest, in the largest stack if this one is full. Returns the place after it, or
/// `None` after an error.
#[cfg_attr(not(debug_assertions), inline(always))]
fn read_to_end(parser: &mut Parser<'_, '_>) -> Option<usize> {
    match read_steps(parser, 0) {
        ReadOutcome::Complete => parser.place(),
        ReadOutcome::StackFull => read_in_full_stack(parser),
        ReadOutcome::Failed => None,
    }
}

/// Reads the rest in a larger stack, and if that is full too, in the largest. Returns the place
/// after it, or `None` after an error.
#[inline(never)]
fn read_in_middle_stack(parser: &mut Parser<'_, '_>) -> Option<usize> {
    let mut memory = [UNUSED_FRAME; MIDDLE_STACK];
    let mut larger = parser.in_larger_stack(&mut memory);
    read_to_end(&mut larger)
}

/// Reads the path at a place, with no frames on the stack. Returns the place after it, and then
/// leaves no frames. Returns `None` after an error.
fn path_end(parser: &mut Parser<'_, '_>, place: usize) -> Option<usize> {
    parser.start_path(place);
    match read_steps(parser, 0) {
        ReadOutcome::Complete => parser.place(),
        ReadOutcome::StackFull => {
            let end = read_in_middle_stack(parser);
            parser.stack.truncate(0);
            end
        }
        ReadOutcome::Failed => None,
    }
}

/// Reads one path or two. Returns the place of the suffix after them, or `None` after an
/// error.
fn suffix(parser: &mut Parser<'_, '_>) -> Option<usize> {
    let end = path_end(parser, 0)?;
    // A second path names the crate in which a generic was instantiated. It is read, so that
    // the suffix begins after it, and never printed.
    if begins_path(parser.source.symbol, end) {
        return path_end(parser, end);
    }
    Some(end)
}

/// Returns the place of the suffix after one path or two, or `None` if they have an error.
pub fn suffix_at(symbol: &Symbol<'_>) -> Option<usize> {
    // Without the hashes, the disambiguators of crates get no value.
    let source = Source {
        symbol,
        form: Form {
            include_hash: false,
            fold_arguments: false,
        },
    };
    let mut memory = [UNUSED_FRAME; SHORT_STACK];
    let mut parser = Parser::at_path(source, 0, &mut memory);
    suffix(&mut parser)
}

/// Returns `true` if a path begins at a place.
pub fn begins_path(symbol: &Symbol<'_>, place: usize) -> bool {
    matches!(symbol.byte(place,), Some(b'A'..=b'Z'))
}

/// Reads a second path after the first one, which ends at a place. Returns the place of the suffix,
/// or `None` if the second path has an error.
#[cfg(feature = "stream")]
#[cfg_attr(not(debug_assertions), inline(always))]
fn end_after(parser: &mut Parser<'_, '_>, end: usize) -> Option<usize> {
    if !begins_path(parser.source.symbol, end) {
        return Some(end);
    }
    // Arguments are folded only when they are printed.
    parser.source.form.fold_arguments = false;
    parser.stack.truncate(0);
    path_end(parser, end)
}

/// Prints the first path, at which the parser is, before it is known whether the symbol is valid, and
/// reads a second one. Returns the place of the suffix, or `None` if the second path has an error.
///
/// Fails if the path is not printed to its end: if the fuel is used up, the stack is full, the path
/// has an error, the limit or the sink rejects a piece, or the limit a reference. Then a part of it
/// may be printed.
#[cfg(feature = "stream")]
#[cfg_attr(not(debug_assertions), inline(always))]
pub fn print_to_suffix<S: TextSink>(
    parser: &mut Parser<'_, '_>,
    out: &mut SizeLimitedFmtAdapter<'_, S>,
) -> Result<Option<usize>, SinkRefused> {
    let left = print_steps(parser, out, true)?;
    let Some(end) = end_of_print(parser, left) else {
        return Err(SinkRefused);
    };
    Ok(end_after(parser, end))
}
