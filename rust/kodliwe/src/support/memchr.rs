//! The searches for a byte, with the interface of the crate `memchr`.

/// How many bytes are tested at once, with vector instructions.
const GROUP: usize = 32;
const LOW: usize = usize::MAX / 255;
const HIGH: usize = LOW * 128;
const SIZE: usize = size_of::<usize>();

/// Returns the offset of the first byte with this value.
pub fn memchr(needle: u8, text: &[u8]) -> Option<usize> {
    let mut rest = text;
    while let Some((group, after)) = rest.split_first_chunk() {
        if has_byte(needle, group) {
            break;
        }
        rest = after;
    }
    // The rest is shorter than a group, or begins with a group that has the byte.
    if rest.len() < GROUP
        && text
            .last_chunk()
            .is_some_and(|group| !has_byte(needle, group))
    {
        return None;
    }
    Some(text.len() - rest.len() + find_by_words(needle, rest)?)
}

/// Returns whether the byte is in a group.
#[cfg_attr(not(debug_assertions), inline(always))]
fn has_byte(needle: u8, group: &[u8; GROUP]) -> bool {
    // The compiler would not vectorize a loop that ends early.
    group
        .iter()
        .fold(false, |found, byte| found | (*byte == needle))
}

/// Returns the offset of the first byte with this value, eight bytes at a time.
#[cfg_attr(not(debug_assertions), inline(always))]
fn find_by_words(needle: u8, text: &[u8]) -> Option<usize> {
    let pattern = LOW * usize::from(needle);
    let mut at = 0;
    // A word has the byte where a byte of the difference is zero; the lowest such bit is exact.
    while let Some(word) = text[at..].first_chunk::<SIZE>() {
        let difference = usize::from_le_bytes(*word) ^ pattern;
        let zeros = difference.wrapping_sub(LOW) & !difference & HIGH;
        if zeros != 0 {
            return Some(at + (zeros.trailing_zeros() / 8) as usize);
        }
        at += SIZE;
    }
    text[at..]
        .iter()
        .position(|byte| *byte == needle)
        .map(|after| at + after)
}

/// Returns the offset of the last byte with this value.
pub fn memrchr(needle: u8, text: &[u8]) -> Option<usize> {
    let mut rest = text;
    while let Some((before, group)) = rest.split_last_chunk() {
        if has_byte(needle, group) {
            break;
        }
        rest = before;
    }
    // The rest is shorter than a group, or ends with a group that has the byte.
    if rest.len() < GROUP
        && text
            .first_chunk()
            .is_some_and(|group| !has_byte(needle, group))
    {
        return None;
    }
    find_last_by_words(needle, rest)
}

/// Returns the offset of the last byte with this value, eight bytes at a time from the end.
#[cfg_attr(not(debug_assertions), inline(always))]
fn find_last_by_words(needle: u8, text: &[u8]) -> Option<usize> {
    let pattern = LOW * usize::from(needle);
    let mut end = text.len();
    // Each byte of the difference except zero sets its own high bit, so the highest zero is exact.
    while let Some(word) = text[..end].last_chunk::<SIZE>() {
        let difference = usize::from_le_bytes(*word) ^ pattern;
        let zeros = !(((difference & !HIGH) + !HIGH) | difference) & HIGH;
        if zeros != 0 {
            return Some(end - 1 - (zeros.leading_zeros() / 8) as usize);
        }
        end -= SIZE;
    }
    text[..end].iter().rposition(|byte| *byte == needle)
}
