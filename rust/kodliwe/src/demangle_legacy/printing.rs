// Made from crates/demangle_legacy/src/printing.rt by packaging/crate/erase.py: edit that file instead.
//! Prints an element of a legacy symbol.

use crate::demangle_legacy::hexadecimal::are_hexadecimal;
use crate::demangle_legacy::units::{Unit, unit_at};
use crate::demangle_sink::{SinkRefused, SizeLimitedFmtAdapter, TextSink};
use crate::demangle_symbol::cursor::{Part, Symbol, WINDOW};
use crate::demangle_symbol::form::Form;

/// Returns `true` if all bytes of a part are hexadecimal digits.
///
/// Digits of either case and any number of them are accepted, as in the Rust crate.
fn has_only_digits(symbol: &Symbol<'_>, part: Part) -> bool {
    // rustc writes as many digits as a window has bytes.
    if part.to - part.from == WINDOW {
        let Some(bytes) = symbol.window(part.from) else {
            return false;
        };
        return are_hexadecimal(bytes);
    }
    for at in part.from..part.to {
        let Some(byte) = symbol.byte(at) else {
            return false;
        };
        if !byte.is_ascii_hexdigit() {
            return false;
        }
    }
    true
}

/// Returns `true` if an element is `h` followed only by hexadecimal digits.
fn is_hash(symbol: &Symbol<'_>, element: Part) -> bool {
    if element.to <= element.from {
        return false;
    }
    if !symbol.is_at(b'h', element.from) {
        return false;
    }
    let digits = Part {
        from: element.from + 1,
        to: element.to,
    };
    has_only_digits(symbol, digits)
}

/// Returns `true` if an element is omitted: the form has no hash, and the element is the last one
/// and is a hash.
pub(super) fn is_omitted(symbol: &Symbol<'_>, element: Part, form: Form) -> bool {
    !form.include_hash && symbol.is_at(b'E', element.to) && is_hash(symbol, element)
}

/// Puts the text of the unit that these bytes spell.
fn put_unit<S: TextSink>(
    symbol: &Symbol<'_>,
    unit: Unit,
    bytes: Part,
    out: &mut SizeLimitedFmtAdapter<'_, S>,
) -> Result<(), SinkRefused> {
    match unit {
        Unit::Separator => out.put("::"),
        // The size of such a text is a constant, so one store copies it.
        Unit::Char(c) if c.is_ascii() => out.put(c.encode_utf8(&mut [0; 1])),
        Unit::Char(c) => out.put(c.encode_utf8(&mut [0; 4])),
        Unit::Run => symbol.span(bytes).write_to(out),
    }
}

/// Returns the place of the first unit of an element. A `_` before a `$` is omitted.
fn first_unit(symbol: &Symbol<'_>, element: Part) -> usize {
    // An identifier cannot start with an escape. rustc puts a `_` before an element that would.
    if element.to - element.from >= 2
        && symbol.is_at(b'_', element.from)
        && symbol.is_at(b'$', element.from + 1)
    {
        element.from + 1
    } else {
        element.from
    }
}

/// Puts an element, with one piece for each unit.
pub(super) fn put_element<S: TextSink>(
    symbol: &Symbol<'_>,
    element: Part,
    out: &mut SizeLimitedFmtAdapter<'_, S>,
) -> Result<(), SinkRefused> {
    let mut at = first_unit(symbol, element);
    while at < element.to {
        // After an invalid escape, the rest of the element is printed unchanged, with its later
        // escapes.
        let Some((unit, next)) = unit_at(symbol, at, element.to) else {
            break;
        };
        put_unit(symbol, unit, Part { from: at, to: next }, out)?;
        at = next;
    }
    let rest = Part {
        from: at,
        to: element.to,
    };
    symbol.span(rest).write_to(out)
}
