// Made from crates/piece_buffer/src/growing.rt by packaging/crate/erase.py: edit that file instead.
//! A buffer on the heap, which grows.

use crate::piece_buffer::copy;
use crate::support::alloc::Global;
use crate::support::vec::Vec;

/// The most bytes that a buffer which grows holds, and allocates.
pub const MOST_GROWN: usize = 1_024_000;

/// The number of bytes that are allocated first. They double when they are full.
const FIRST_GROWN: usize = 1024;

/// The most bytes of memory that can grow. If more are needed, `MOST_GROWN` are allocated.
const HALF_GROWN: usize = 512_000;

/// Returns how many bytes to allocate if the memory has `len` and needs `needed`.
fn grown_len(len: usize, needed: usize) -> usize {
    let doubled = len.saturating_mul(2).max(FIRST_GROWN).max(needed);
    if doubled > HALF_GROWN {
        MOST_GROWN
    } else {
        doubled
    }
}

/// Allocates longer memory for `more` bytes after the first `len`, which are copied to it. Returns
/// `false` if memory can't be allocated, or if there would be more bytes than `MOST_GROWN`. Then the
/// memory is unchanged.
///
/// The memory before is freed after its bytes are copied. Until then, both are allocated.
#[inline(never)]
fn grow(memory: &mut Vec<u8>, len: usize, more: usize, alloc: Global) -> bool {
    if len > MOST_GROWN || more > MOST_GROWN - len {
        return false;
    }
    let longer_len = grown_len(memory.len(), len + more);
    let most = if longer_len < MOST_GROWN {
        HALF_GROWN
    } else {
        MOST_GROWN
    };
    let mut longer = Vec::new(alloc);
    if longer.resize(longer_len, 0).is_err() || longer.capacity() > most {
        return false;
    }
    copy(&memory[..len], &mut longer);
    *memory = longer;
    true
}

/// Returns whether the memory has `more` bytes after the first `len`, as `grow` does. It grows only if
/// they are not there.
#[cfg_attr(not(debug_assertions), inline(always))]
fn make_room(memory: &mut Vec<u8>, len: usize, more: usize, alloc: Global) -> bool {
    more <= memory.len() - len || grow(memory, len, more, alloc)
}

/// At most `MOST_GROWN` bytes, in the order in which they were pushed. They are on the heap. Nothing
/// is allocated before the first byte is pushed.
pub struct GrowingBuffer {
    alloc: Global,
    memory: Vec<u8>,
    /// The number of bytes that are in use, from the start.
    len: usize,
}

impl GrowingBuffer {
    /// Returns an empty buffer.
    pub fn new(alloc: Global) -> Self {
        GrowingBuffer {
            alloc,
            memory: Vec::new(alloc),
            len: 0,
        }
    }

    /// Returns the buffered bytes.
    pub fn as_slice(&self) -> &[u8] {
        &self.memory[..self.len]
    }

    /// Returns the number of buffered bytes.
    pub fn len(&self) -> usize {
        self.len
    }

    /// Returns the number of bytes of memory that the buffer has allocated. While it grows, the memory
    /// before is allocated too: together at most `MOST_GROWN + HALF_GROWN` (`both` of `grow`).
    #[cfg(all(test, feature = "stream"))]
    pub fn allocated(&self) -> usize {
        self.memory.capacity()
    }

    /// Appends all of the piece. If memory can't be allocated, or if there would be more bytes than
    /// `MOST_GROWN`, it returns `false` and changes no byte. It always appends an empty piece.
    #[cfg_attr(not(debug_assertions), inline(always))]
    pub fn push(&mut self, piece: &[u8]) -> bool {
        if !make_room(&mut self.memory, self.len, piece.len(), self.alloc) {
            return false;
        }
        copy(piece, &mut self.memory[self.len..]);
        self.len += piece.len();
        true
    }

    /// Appends `len` of the buffered bytes again, from the byte `start` on. If there is no memory for
    /// them, as for `push`, it returns `false` and changes no byte.
    pub fn push_again(&mut self, start: usize, len: usize) -> bool {
        if !make_room(&mut self.memory, self.len, len, self.alloc) {
            return false;
        }
        self.memory.copy_within(start..start + len, self.len);
        self.len += len;
        true
    }

    /// Removes all bytes. The memory stays allocated.
    pub fn clear(&mut self) {
        self.len = 0;
    }
}
