// Made from crates/piece_buffer/src/lib.rt by packaging/crate/erase.py: edit that file instead.
//! A buffer for bytes on their way to a writer, which makes pieces of a few bytes cheap.

mod growing;

pub use growing::GrowingBuffer;

/// The most bytes that the buffer holds. They are on the stack.
pub const CAPACITY: usize = 2048;

/// Copies a piece of `N` to `2 * N` bytes: its first `N` and its last `N`, which may overlap.
#[cfg_attr(not(debug_assertions), inline(always))]
fn copy_ends<const N: usize>(piece: &[u8], room: &mut [u8]) {
    *room.first_chunk_mut::<N>().unwrap() = *piece.first_chunk::<N>().unwrap();
    *room.last_chunk_mut::<N>().unwrap() = *piece.last_chunk::<N>().unwrap();
}

/// Copies a piece to the start of the room. Most pieces have a few bytes, and copying those costs
/// less than a call of the C library.
#[inline]
fn copy(piece: &[u8], room: &mut [u8]) {
    let room = &mut room[..piece.len()];
    match piece.len() {
        0..=1 => {
            if let [byte] = piece {
                room[0] = *byte;
            }
        }
        2..=4 => copy_ends::<2>(piece, room),
        5..=8 => copy_ends::<4>(piece, room),
        9..=16 => copy_ends::<8>(piece, room),
        17..=32 => copy_ends::<16>(piece, room),
        _ => room.copy_from_slice(piece),
    }
}

/// At most `CAPACITY` bytes, in the order in which they were pushed.
pub struct PieceBuffer {
    bytes: [u8; CAPACITY],
    /// The number of bytes that are in use, from the start.
    len: usize,
}

impl PieceBuffer {
    /// Returns an empty buffer.
    pub fn new() -> Self {
        PieceBuffer {
            bytes: [0; CAPACITY],
            len: 0,
        }
    }

    /// Returns the buffered bytes.
    pub fn as_slice(&self) -> &[u8] {
        &self.bytes[..self.len]
    }

    /// Returns the number of buffered bytes.
    pub fn len(&self) -> usize {
        self.len
    }

    /// Returns `true` if no bytes are buffered.
    pub fn is_empty(&self) -> bool {
        self.len == 0
    }

    /// Appends all of the piece. If there is no room for it, returns `false` and changes nothing.
    #[cfg_attr(not(debug_assertions), inline(always))]
    pub fn push(&mut self, piece: &[u8]) -> bool {
        let start = self.len;
        let end = start + piece.len();
        if end > CAPACITY {
            return false;
        }
        self.len = end;
        copy(piece, &mut self.bytes[start..]);
        true
    }

    /// Appends `len` of the buffered bytes again, from the byte `start` on. If there is no room for
    /// them, returns `false` and changes nothing.
    pub fn push_again(&mut self, start: usize, len: usize) -> bool {
        if len > CAPACITY - self.len {
            return false;
        }
        self.bytes.copy_within(start..start + len, self.len);
        self.len += len;
        true
    }

    /// Removes the first `count` bytes.
    pub fn remove_prefix(&mut self, count: usize) {
        self.bytes.copy_within(count..self.len, 0);
        self.len -= count;
    }

    /// Removes all bytes.
    pub fn clear(&mut self) {
        self.len = 0;
    }
}
