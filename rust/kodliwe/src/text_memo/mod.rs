// Made from crates/text_memo/src/lib.rt by packaging/crate/erase.py: edit that file instead.
//! A memo, in bounded memory, for a function from texts to texts. It remembers the text for some
//! keys.

use crate::support::vec::Vec;
mod comparisons;

use crate::support::alloc::Global;
use comparisons::are_equal;
#[cfg(all(test, feature = "stream"))]
use core::mem;

/// The number of pairs of entries. The hash of a key chooses its pair.
const PAIRS: usize = 8192;

/// The number of slots for the fingerprints of keys, and of those for the keys of long texts.
const FINGERPRINTS: usize = 8192;

/// The longest key of an entry.
pub const MAX_KEY: usize = 2048;

/// The longest text of an entry.
pub const MAX_TEXT: usize = 2048;

/// The most bytes of keys and texts. All entries are removed before this would be exceeded.
const MAX_BYTES: usize = 4_194_304;

/// The number of bytes that the first entry allocates. It doubles when they are full, up to
/// `MAX_BYTES`.
const FIRST_BYTES: usize = 65_536;

/// An entry: the offset of a key in `bytes`. Its text follows it.
#[derive(Clone, Copy)]
struct Entry {
    start: u32,
    key_len: u16,
    text_len: u16,
    /// A part of the key's hash. Most other keys have another one.
    fingerprint: u32,
}

/// The two entries for the keys that share a part of their hash.
#[derive(Clone, Copy)]
struct Pair {
    newer: Entry,
    older: Entry,
}

/// A free entry. It has an empty key and an even fingerprint, which no other entry has.
const NO_ENTRY: Entry = Entry {
    start: 0,
    key_len: 0,
    text_len: 0,
    fingerprint: 0,
};

/// A pair without entries.
const NO_PAIR: Pair = Pair {
    newer: NO_ENTRY,
    older: NO_ENTRY,
};

/// How a key was noted before. Another key may have the same fingerprint.
#[derive(Clone, Copy, Debug, PartialEq, Eq)]
pub enum Noted {
    /// It was not noted, or its fingerprint was replaced.
    New,
    /// It was noted before.
    Again,
    /// Its text is too long for an entry.
    TooLong,
}

/// A memo of keys and their texts.
pub struct TextMemo {
    pairs: Vec<Pair>,
    bytes: Vec<u8>,
    /// The fingerprint of the last key that was noted in each slot.
    noted: Vec<u32>,
    /// The fingerprint of the last key in each slot whose text is too long.
    too_long: Vec<u32>,
}

/// Returns a hash with sixteen bytes mixed in.
#[cfg_attr(not(debug_assertions), inline(always))]
fn mixed(hash: u64, bytes: u128) -> u64 {
    let low = (bytes % 18_446_744_073_709_551_616) as u64 ^ hash;
    let high = (bytes / 18_446_744_073_709_551_616) as u64 ^ 0x9E37_79B9_7F4A_7C15;
    let product = (low as u128).wrapping_mul(high as u128);
    let folded = (product / 18_446_744_073_709_551_616) as u64;
    (product % 18_446_744_073_709_551_616) as u64 ^ folded
}

/// Returns a hash of a key. Different keys may have the same hash.
#[cfg_attr(not(debug_assertions), inline(always))]
pub fn hash_of(key: &[u8]) -> u64 {
    let mut hash = 0;
    for group in key.chunks_exact(16) {
        if let Some(bytes) = group.first_chunk::<16>() {
            hash = mixed(hash, u128::from_le_bytes(*bytes));
        }
    }
    // The last sixteen bytes. Some of them may be mixed in a second time.
    if let Some(last) = key.last_chunk::<16>() {
        hash = mixed(hash, u128::from_le_bytes(*last));
    }
    hash
}

/// Returns the index of a key's pair.
#[cfg_attr(not(debug_assertions), inline(always))]
fn pair_slot(hash: u64) -> usize {
    ((hash / 4_294_967_296) % 8192) as usize
}

/// Returns the index of a key's fingerprint.
#[cfg_attr(not(debug_assertions), inline(always))]
fn fingerprint_slot(hash: u64) -> usize {
    ((hash / 1_099_511_627_776) % 8192) as usize
}

/// Returns a key's fingerprint, which is odd.
#[cfg_attr(not(debug_assertions), inline(always))]
fn fingerprint_of(hash: u64) -> u32 {
    (hash % 4_294_967_296) as u32 | 1
}

/// Fills a vector with zeros if it is empty. It stays empty if memory can't be allocated, or if `Vec`
/// allocates more than it needs.
#[inline(never)]
fn fill(fingerprints: &mut Vec<u32>) {
    if fingerprints.resize(FINGERPRINTS, 0).is_err() || fingerprints.capacity() > FINGERPRINTS {
        fingerprints.clear();
        fingerprints.shrink_to_fit();
    }
}

impl TextMemo {
    /// Returns a memo without entries. It does not allocate before a key is noted.
    pub fn new(alloc: Global) -> Self {
        TextMemo {
            pairs: Vec::new(alloc),
            bytes: Vec::new(alloc),
            noted: Vec::new(alloc),
            too_long: Vec::new(alloc),
        }
    }

    /// Returns the number of bytes that the memo has allocated, which is at most 4.5 MB.
    #[cfg(all(test, feature = "stream"))]
    pub fn allocated(&self) -> usize {
        let fingerprints = self
            .noted
            .capacity()
            .saturating_add(self.too_long.capacity());
        let pairs = self.pairs.capacity().saturating_mul(mem::size_of::<Pair>());
        pairs
            .saturating_add(fingerprints.saturating_mul(mem::size_of::<u32>()))
            .saturating_add(self.bytes.capacity())
    }

    /// Returns the text of an entry, or `None` if the entry has another key. Compares at most one
    /// key.
    #[cfg_attr(not(debug_assertions), inline(always))]
    fn text_at(&self, entry: &Entry, key: &[u8], fingerprint: u32) -> Option<&[u8]> {
        if entry.fingerprint != fingerprint || entry.key_len as usize != key.len() {
            return None;
        }
        let start = entry.start as usize;
        let middle = start + entry.key_len as usize;
        let end = middle + entry.text_len as usize;
        let bytes = self.bytes.as_slice();
        if end > bytes.len() {
            return None;
        }
        // Two keys may have the same fingerprint and length.
        if are_equal(&bytes[start..middle], key) {
            Some(&bytes[middle..end])
        } else {
            None
        }
    }

    /// Returns the text of a key, or `None` if the memo has no entry for it. `hash` is the key's.
    /// Compares at most two keys.
    #[cfg_attr(not(debug_assertions), inline(always))]
    pub fn get(&self, key: &[u8], hash: u64) -> Option<&[u8]> {
        let slot = pair_slot(hash);
        if slot >= self.pairs.len() {
            return None;
        }
        let pair = &self.pairs[slot];
        let fingerprint = fingerprint_of(hash);
        match self.text_at(&pair.newer, key, fingerprint) {
            Some(text) => Some(text),
            None => self.text_at(&pair.older, key, fingerprint),
        }
    }

    /// Notes a key, and returns how it was noted before. So a caller can leave out keys that come
    /// once. `hash` is the key's.
    ///
    /// Any key replaces the fingerprint of another one in its slot. Those of long texts are apart,
    /// so each of them is replaced only by another one.
    #[cfg_attr(not(debug_assertions), inline(always))]
    pub fn note(&mut self, hash: u64) -> Noted {
        if self.noted.is_empty() {
            fill(&mut self.noted);
        }
        let slot = fingerprint_slot(hash);
        if slot >= self.noted.len() {
            return Noted::New;
        }
        let fingerprint = fingerprint_of(hash);
        if self.noted[slot] != fingerprint {
            self.noted[slot] = fingerprint;
            return Noted::New;
        }
        if self.too_long.get(slot) == Some(&fingerprint) {
            Noted::TooLong
        } else {
            Noted::Again
        }
    }

    /// Notes that a key's text is too long for an entry. `hash` is the key's.
    pub fn note_too_long(&mut self, hash: u64) {
        if self.too_long.is_empty() {
            fill(&mut self.too_long);
        }
        let slot = fingerprint_slot(hash);
        if slot < self.too_long.len() {
            self.too_long[slot] = fingerprint_of(hash);
        }
    }

    /// Removes all entries.
    fn clear(&mut self) {
        self.pairs.clear();
        self.bytes.clear();
    }

    /// Makes room for an entry of `len` bytes, or returns `false` if memory can't be allocated. All
    /// entries are removed if there would be too many bytes.
    fn make_room(&mut self, len: usize) -> bool {
        if self.bytes.len() > MAX_BYTES - len {
            self.clear();
        }
        if self.bytes.capacity() == 0 && self.bytes.reserve_exact(FIRST_BYTES).is_err() {
            return false;
        }
        self.pairs.len() == PAIRS || self.pairs.resize(PAIRS, NO_PAIR).is_ok()
    }

    /// Appends a key and its text to the bytes, or returns `false` if memory can't be allocated.
    fn append(&mut self, key: &[u8], text: &[u8]) -> bool {
        self.bytes.extend_from_slice(key).is_ok() && self.bytes.extend_from_slice(text).is_ok()
    }

    /// Adds an entry to a pair as the newer one. The one that was newer becomes the older one, and
    /// the one that was older is removed.
    fn put(&mut self, entry: Entry, slot: usize) {
        if slot < self.pairs.len() {
            let older = self.pairs[slot].newer;
            self.pairs[slot] = Pair {
                newer: entry,
                older,
            };
        }
    }

    /// Adds an entry for a key and its text, if memory can be allocated. `hash` is the key's.
    fn add(&mut self, key: &[u8], text: &[u8], hash: u64) {
        if !self.make_room(key.len() + text.len()) {
            return;
        }
        let start = self.bytes.len();
        if !self.append(key, text) {
            return;
        }
        let entry = Entry {
            start: start as u32,
            key_len: key.len() as u16,
            text_len: text.len() as u16,
            fingerprint: fingerprint_of(hash),
        };
        self.put(entry, pair_slot(hash));
    }

    /// Frees the memory of all entries if `Vec` allocated more than they need.
    fn free_excess(&mut self) {
        if self.pairs.capacity() > PAIRS || self.bytes.capacity() > MAX_BYTES {
            self.clear();
            self.pairs.shrink_to_fit();
            self.bytes.shrink_to_fit();
        }
    }

    /// Remembers the text of a key, and may remove older entries for it. `hash` is the key's.
    ///
    /// It changes no result of `get` if the key or the text is too long, or if memory can't be
    /// allocated.
    #[inline(never)]
    pub fn insert(&mut self, key: &[u8], text: &[u8], hash: u64) {
        if key.len() <= MAX_KEY && text.len() <= MAX_TEXT {
            self.add(key, text, hash);
            self.free_excess();
        }
    }
}
