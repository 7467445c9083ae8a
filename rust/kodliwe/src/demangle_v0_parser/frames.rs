// Made from crates/demangle_v0_parser/src/frames.rt by packaging/crate/erase.py: edit that file instead.
//! The frames, which store what follows a nested production, and their stack.

use crate::demangle_v0_parser::Continuation;

use core::mem;

const TWO_64: u128 = 1 << 64;

/// A saved continuation, with the state that it needs.
#[derive(Clone, Copy)]
pub struct Frame {
    /// The continuation.
    pub continuation: Continuation,
    /// Whether the path or constant is in value position.
    pub in_value: bool,
    /// A namespace, or the type tag of a number.
    pub letter: u8,
    /// How many more levels of nesting are allowed.
    pub depth_left: u16,
    /// The number of lifetimes in scope. For `AfterBackref` it is the offset after the reference.
    pub number: u128,
}

/// A frame as the stack stores it, in 16 bytes.
#[derive(Clone, Copy)]
pub struct PackedFrame {
    low: u64,
    high: u16,
    depth_left: u16,
    continuation: Continuation,
    in_value: bool,
    /// One byte, stored in two. So no byte is unused, and the compiler clears and copies a frame as
    /// two machine words.
    letter: u16,
}

const _: () = assert!(mem::size_of::<PackedFrame>() == 16);

/// What the memory of a stack holds above its top.
pub const UNUSED_FRAME: PackedFrame = PackedFrame {
    low: 0,
    high: 0,
    depth_left: 0,
    continuation: Continuation::InherentImplPath,
    in_value: false,
    letter: 0,
};

/// Returns a frame as the stack stores it.
#[cfg_attr(not(debug_assertions), inline(always))]
fn pack(frame: Frame) -> PackedFrame {
    PackedFrame {
        low: (frame.number % TWO_64) as u64,
        // 80 bits hold the number of all lifetimes in scope: fewer than 2^64 for each of 500
        // levels.
        high: (frame.number / TWO_64 % 0x10000) as u16,
        depth_left: frame.depth_left,
        continuation: frame.continuation,
        in_value: frame.in_value,
        letter: u16::from(frame.letter),
    }
}

/// Returns the frame that the stack stores so.
#[cfg_attr(not(debug_assertions), inline(always))]
fn unpack(packed: PackedFrame) -> Frame {
    Frame {
        continuation: packed.continuation,
        in_value: packed.in_value,
        letter: (packed.letter % 256) as u8,
        depth_left: packed.depth_left,
        number: u128::from(packed.high) * TWO_64 + u128::from(packed.low),
    }
}

/// A stack of frames in the caller's memory. The last one is the top.
pub struct FrameStack<'f> {
    memory: &'f mut [PackedFrame],
    len: usize,
}

impl<'f> FrameStack<'f> {
    /// Returns an empty stack, which has room for as many frames as this memory.
    #[cfg_attr(not(debug_assertions), inline(always))]
    pub fn new(memory: &'f mut [PackedFrame]) -> Self {
        FrameStack { memory, len: 0 }
    }

    /// Returns a stack in this memory with the frames of another.
    pub fn with_frames_of(other: &FrameStack<'_>, memory: &'f mut [PackedFrame]) -> Self {
        memory[..other.len].copy_from_slice(&other.memory[..other.len]);
        FrameStack {
            memory,
            len: other.len,
        }
    }

    /// Returns the number of frames.
    #[cfg_attr(not(debug_assertions), inline(always))]
    pub fn len(&self) -> usize {
        self.len
    }

    /// Returns whether there is room for another frame.
    #[cfg_attr(not(debug_assertions), inline(always))]
    pub fn has_room(&self) -> bool {
        self.len < self.memory.len()
    }

    /// Returns for how many further frames there is room.
    #[cfg_attr(not(debug_assertions), inline(always))]
    pub fn room_left(&self) -> usize {
        self.memory.len() - self.len
    }

    /// Pushes a frame.
    #[cfg_attr(not(debug_assertions), inline(always))]
    pub fn push(&mut self, frame: Frame) {
        self.memory[self.len] = pack(frame);
        self.len += 1;
    }

    /// Keeps only the lowest `count` frames.
    pub fn truncate(&mut self, count: usize) {
        self.len = self.len.min(count);
    }

    /// Removes the top frame and returns it, or returns `None` if the stack is empty.
    #[cfg_attr(not(debug_assertions), inline(always))]
    pub fn pop(&mut self) -> Option<Frame> {
        if self.len == 0 {
            return None;
        }
        self.len -= 1;
        Some(unpack(self.memory[self.len]))
    }
}
