// Made from crates/rustc_demangle/src/runs.rt by packaging/crate/erase.py: edit that file instead.
//! Finds the runs of a text. A run is a candidate symbol.

use crate::support::memchr::memchr;
use core::str;

/// Returns whether the text starts with a run's prefix.
pub(crate) fn starts_run(text: &[u8]) -> bool {
    text.starts_with(b"_ZN") || text.starts_with(b"_R")
}

/// Returns whether these two bytes may start a run.
#[cfg_attr(not(debug_assertions), inline(always))]
fn may_start_run(first: u8, second: u8) -> bool {
    (first == b'_') & ((second == b'R') | (second == b'Z'))
}

/// Returns whether a run may start in the group of bytes at `from`.
#[cfg_attr(not(debug_assertions), inline(always))]
fn group_may_start_run<const N: usize>(text: &[u8], from: usize) -> bool {
    // Arrays need no bounds check in the loop, so the compiler vectorizes it.
    let Some(firsts) = text[from..].first_chunk::<N>() else {
        return true;
    };
    let Some(seconds) = text[from + 1..].first_chunk::<N>() else {
        return true;
    };
    let mut any = false;
    for k in 0..N {
        any |= may_start_run(firsts[k], seconds[k]);
    }
    any
}

/// Returns the end of the complete groups after `from` in which no run starts.
#[cfg_attr(not(debug_assertions), inline(always))]
fn skip_groups<const N: usize>(text: &[u8], from: usize) -> usize {
    let mut at = from;
    while text.len() - at > N && !group_may_start_run::<N>(text, at) {
        at += N;
    }
    at
}

/// Returns the offset of the next run: the first `_ZN` or `_R`. Returns `None` if the text contains
/// neither.
pub fn run_start(text: &[u8]) -> Option<usize> {
    let mut from = 0;
    // A run starts with `_`, and a search for a single byte is fast.
    while let Some(offset) = memchr(b'_', &text[from..]) {
        let at = from + offset;
        if starts_run(&text[at..]) {
            return Some(at);
        }
        // A text with many `_` is skipped in complete groups with vector instructions, and not one
        // `_` at a time.
        from = skip_groups::<32>(text, at + 1);
    }
    None
}

/// Returns whether this is a run byte.
#[cfg_attr(not(debug_assertions), inline(always))]
pub(crate) fn is_run_byte(byte: u8) -> bool {
    (byte == b'$') | (byte == b'.') | (byte == b'_') | byte.is_ascii_alphanumeric()
}

/// Returns 0 for a run byte, and another number for any other byte.
// Vector instructions have the minimum, and the subtraction that stops at 0. They have no comparison
// of a byte with a range.
#[cfg_attr(not(debug_assertions), inline(always))]
fn run_byte_distance(byte: u8) -> u8 {
    // A letter differs from the other case in one bit, and a digit from `0` in the lowest four.
    let letter = (byte | 0x20).wrapping_sub(b'a').saturating_sub(25);
    let digit = (byte ^ b'0').saturating_sub(9);
    if (byte == b'_') | (byte == b'.') | (byte == b'$') {
        0
    } else {
        letter.min(digit)
    }
}

/// Returns how many run bytes a group of 16 bytes begins with.
#[cfg_attr(not(debug_assertions), inline(always))]
fn run_bytes_of(group: &[u8; 16]) -> usize {
    // The compiler vectorizes the loop. The distance of the first byte is the lowest byte of the
    // word. So eight trailing zeros are one run byte.
    let mut distances = [0; 16];
    for k in 0..16 {
        distances[k] = run_byte_distance(group[k]);
    }
    let word = u128::from_le_bytes(distances);
    if word == 0 {
        16
    } else {
        (word.trailing_zeros() / 8) as usize
    }
}

/// Returns the length of the run at the start of a text of at least 16 bytes, given its last group.
#[cfg_attr(not(debug_assertions), inline(always))]
fn run_len_by_groups(text: &[u8], last: &[u8; 16]) -> usize {
    let mut at = 0;
    while let Some(group) = text[at..].first_chunk::<16>() {
        let count = run_bytes_of(group);
        if count < 16 {
            return at + count;
        }
        at += 16;
    }
    // Fewer than 16 bytes remain, so the last group begins among the run bytes before them.
    text.len() - 16 + run_bytes_of(last)
}

/// Returns the length of the run at the start of a text of 8 to 16 bytes, given its ends.
#[cfg_attr(not(debug_assertions), inline(always))]
fn run_len_by_ends(text: &[u8], first: &[u8; 8], last: &[u8; 8]) -> usize {
    // Both ends are one group. Bytes in the middle may be in it twice.
    let mut group = [0; 16];
    group[..8].copy_from_slice(first);
    group[8..].copy_from_slice(last);
    let count = run_bytes_of(&group);
    if count < 8 {
        count
    } else {
        text.len() - 8 + (count - 8)
    }
}

/// Returns the length of the run at the start of the text. It ends before the first byte that is
/// not an ASCII letter, a digit, `$`, `.` or `_`.
pub fn run_len(text: &[u8]) -> usize {
    if let Some(last) = text.last_chunk::<16>() {
        return run_len_by_groups(text, last);
    }
    if let (Some(first), Some(last)) = (text.first_chunk::<8>(), text.last_chunk::<8>()) {
        return run_len_by_ends(text, first, last);
    }
    let mut at = 0;
    while at < text.len() && is_run_byte(text[at]) {
        at += 1;
    }
    at
}

/// Returns whether a filter of bytes keeps this candidate because its run begins with `_RC`. A
/// candidate is a run, or a run with the single `_` before it.
///
/// A symbol that begins so is a crate alone. Compilers make none, and names such as `v1.0_RC0` are
/// spelled so.
#[cfg(all(test, feature = "stream"))]
#[cfg_attr(not(debug_assertions), inline(always))]
pub fn stays(candidate: &[u8]) -> bool {
    candidate.starts_with(b"_RC") || candidate.starts_with(b"__RC")
}

/// Returns whether this byte is the tag of a path of the v0 scheme that is more than a crate.
#[cfg_attr(not(debug_assertions), inline(always))]
fn begins_longer_path(tag: u8) -> bool {
    matches!(tag, b'N' | b'M' | b'X' | b'Y' | b'I' | b'B')
}

/// Returns whether a filter of bytes may replace this candidate. Returns `false` if its run begins
/// with `_RC`, or with `_R` and a byte that is no tag of a path, as in `config_Release`.
#[cfg_attr(not(debug_assertions), inline(always))]
pub(crate) fn may_be_replaced(candidate: &[u8]) -> bool {
    if candidate.len() < 3 {
        return true;
    }
    // Most symbols begin with `_RN` or `_ZN`.
    if candidate[2] == b'N' {
        return true;
    }
    if candidate[1] == b'R' {
        return begins_longer_path(candidate[2]);
    }
    if candidate.len() > 3 && ((candidate[1] == b'_') & (candidate[2] == b'R')) {
        return begins_longer_path(candidate[3]);
    }
    true
}

/// Returns the text of a run, which is ASCII.
pub(crate) fn run_text(run: &[u8]) -> &str {
    // SAFETY: a run is ASCII.
    unsafe { str::from_utf8_unchecked(run) }
}
