// Made from crates/demangle_value/src/strip.rt by packaging/crate/erase.py: edit that file instead.
//! Removes the suffix that ThinLTO appends to symbols.

use crate::support::memchr::memrchr;

/// The most bytes at the end of a text that are read one by one.
const MAX_TAIL: usize = 4;

/// Returns whether this byte may follow `.llvm.`.
#[cfg_attr(not(debug_assertions), inline(always))]
fn is_thin_lto_byte(byte: u8) -> bool {
    // `@` is directly before `A`.
    matches!(byte, b'@'..=b'F' | b'0'..=b'9')
}

/// Returns whether this text may follow `.llvm.`.
fn is_thin_lto(ending: &str) -> bool {
    ending
        .bytes()
        .all(|b| matches!(b, b'A'..=b'F' | b'0'..=b'9' | b'@'))
}

/// Returns the place from which on only bytes follow that may follow `.llvm.`. Returns `None` if
/// each of the last `MAX_TAIL` bytes may follow it.
fn thin_lto_from(bytes: &[u8]) -> Option<usize> {
    let end = bytes.len().saturating_sub(MAX_TAIL);
    let mut from = bytes.len();
    while from > end {
        if !is_thin_lto_byte(bytes[from - 1]) {
            return Some(from);
        }
        from -= 1;
    }
    None
}

/// Returns whether a text may have a ThinLTO suffix. Returns `false` only if it has none.
fn may_be_thin_lto(text: &str) -> bool {
    let bytes = text.as_bytes();
    // Most texts have few such bytes at their end, so that this reads less than a search for a `.`.
    if let Some(from) = thin_lto_from(bytes) {
        return from >= 6 && bytes[from - 6..].starts_with(b".llvm.");
    }
    let Some(dot) = memrchr(b'.', bytes) else {
        return false;
    };
    dot >= 5 && bytes[dot - 5..].starts_with(b".llvm.")
}

/// Returns the text without the suffix that ThinLTO appends. The suffix starts at the first
/// `.llvm.`, and only `A` to `F`, digits and `@` follow that.
pub(crate) fn without_thin_lto(text: &str) -> &str {
    if !may_be_thin_lto(text) {
        return text;
    }
    match text.split_once(".llvm.") {
        Some((name, ending)) if is_thin_lto(ending) => name,
        _ => text,
    }
}
