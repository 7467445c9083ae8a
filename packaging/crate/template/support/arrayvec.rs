//! Vectors and texts in the value itself, with the interface of the crate `arrayvec`.
use core::ops::Deref;

/// At most `N` elements.
pub struct ArrayVec<T, const N: usize> {
    items: [T; N],
    len: usize,
}

impl<T: Copy + Blank, const N: usize> ArrayVec<T, N> {
    #[cfg_attr(not(debug_assertions), inline(always))]
    pub fn new() -> Self {
        ArrayVec { items: [T::blank(); N], len: 0 }
    }

    #[inline]
    pub fn len(&self) -> usize {
        self.len
    }

    #[inline]
    pub fn is_full(&self) -> bool {
        self.len == N
    }

    #[inline]
    pub fn as_slice(&self) -> &[T] {
        &self.items[..self.len]
    }

    #[inline]
    pub fn push(&mut self, item: T) {
        self.items[self.len] = item;
        self.len += 1;
    }

    pub fn insert(&mut self, place: usize, item: T) {
        self.items.copy_within(place..self.len, place + 1);
        self.items[place] = item;
        self.len += 1;
    }
}

impl<T: Copy + Blank, const N: usize> Deref for ArrayVec<T, N> {
    type Target = [T];

    fn deref(&self) -> &[T] {
        self.as_slice()
    }
}

/// A value for elements that are not in use.
pub trait Blank {
    fn blank() -> Self;
}

impl<T: Default> Blank for T {
    #[inline]
    fn blank() -> T {
        T::default()
    }
}

/// A text of at most `N` bytes.
pub struct ArrayString<const N: usize> {
    bytes: [u8; N],
    len: usize,
}

impl<const N: usize> ArrayString<N> {
    #[inline]
    pub fn new() -> Self {
        ArrayString { bytes: [0; N], len: 0 }
    }

    #[inline]
    pub fn is_empty(&self) -> bool {
        self.len == 0
    }

    #[inline]
    pub fn as_str(&self) -> &str {
        core::str::from_utf8(&self.bytes[..self.len]).unwrap_or("")
    }

    #[inline]
    pub fn remaining_capacity(&self) -> usize {
        N - self.len
    }

    // The length is stored first, so that a short text needs no room on the stack.
    #[cfg_attr(not(debug_assertions), inline(always))]
    pub fn push_str(&mut self, text: &str) {
        let start = self.len;
        self.len = start + text.len();
        copy(text.as_bytes(), &mut self.bytes[start..]);
    }

    #[inline]
    pub fn clear(&mut self) {
        self.len = 0;
    }
}

/// Copies a text of `K` to `2 * K` bytes: its first `K` and its last `K`, which may overlap.
#[cfg_attr(not(debug_assertions), inline(always))]
fn copy_ends<const K: usize>(text: &[u8], room: &mut [u8]) {
    *room.first_chunk_mut::<K>().unwrap() = *text.first_chunk::<K>().unwrap();
    *room.last_chunk_mut::<K>().unwrap() = *text.last_chunk::<K>().unwrap();
}

/// Copies a text to the start of the room. Most texts have a few bytes, and copying those costs
/// less than a call of the C library.
#[inline]
fn copy(text: &[u8], room: &mut [u8]) {
    let room = &mut room[..text.len()];
    match text.len() {
        0..=1 => {
            if let [byte] = text {
                room[0] = *byte;
            }
        }
        2..=4 => copy_ends::<2>(text, room),
        5..=8 => copy_ends::<4>(text, room),
        9..=16 => copy_ends::<8>(text, room),
        17..=32 => copy_ends::<16>(text, room),
        _ => room.copy_from_slice(text),
    }
}
