// Made from crates/demangle_sink/src/slice_sink.rt by packaging/crate/erase.py: edit that file instead.
//! A sink that writes to a slice of the caller.

use crate::demangle_sink::{SinkRefused, TextSink};

/// Writes a part of a text to the caller's bytes, as far as they reach, and counts all bytes of the
/// text.
///
/// The part starts at a byte of the text, by default the first. It is written from the start of the
/// slice, with nothing after it. Bytes of the slice after the part stay unchanged. A character may
/// be cut at the start of the part and at the end of the slice. A piece is rejected only if the
/// count would exceed `usize::MAX`. It then changes nothing.
pub struct SliceSink<'b> {
    out: &'b mut [u8],
    /// The index of the text's first byte that is written.
    start: usize,
    len: usize,
    failed: bool,
}

impl<'b> SliceSink<'b> {
    /// Returns a sink that writes the first bytes of a text to this slice. It has taken nothing and
    /// has not failed.
    pub fn new(out: &'b mut [u8]) -> Self {
        SliceSink::starting_at(out, 0)
    }

    /// Returns a sink that writes the text from byte `start`, counted from 0, to this slice. It has
    /// taken nothing and has not failed. A text of at most `start` bytes leaves the slice
    /// unchanged.
    pub fn starting_at(out: &'b mut [u8], start: usize) -> Self {
        SliceSink {
            out,
            start,
            len: 0,
            failed: false,
        }
    }

    /// Returns the number of bytes of the text. It includes bytes before the part and bytes that
    /// did not fit.
    pub fn len(&self) -> usize {
        self.len
    }

    /// Takes bytes as `put` takes a piece. They need not be UTF-8.
    ///
    /// # Errors
    ///
    /// Returns `SinkRefused` if the count would exceed `usize::MAX`. The sink has failed from then
    /// on, and the slice is unchanged.
    #[cfg_attr(not(debug_assertions), inline(always))]
    pub fn put_bytes(&mut self, bytes: &[u8]) -> Result<(), SinkRefused> {
        let Some(end) = self.len.checked_add(bytes.len()) else {
            self.failed = true;
            return Err(SinkRefused);
        };
        // Most sinks begin with the text and have room for all of it, so only that is inlined.
        if self.start > 0 {
            write_part(self.out, self.start, self.len, bytes);
        } else if end <= self.out.len() {
            write_whole(self.out, self.len, bytes);
        } else if self.len < self.out.len() {
            write_at(self.out, self.len, bytes);
        }
        self.len = end;
        Ok(())
    }
}

/// Writes bytes to the slice from a place, after which it has room for all of them.
#[cfg_attr(not(debug_assertions), inline(always))]
fn write_whole(out: &mut [u8], place: usize, bytes: &[u8]) {
    copy_piece(bytes, &mut out[place..place + bytes.len()]);
}

/// Writes the bytes of a text after its first `len` ones, as far as the slice reaches. The slice
/// begins with byte `start` of the text.
#[inline(never)]
fn write_part(out: &mut [u8], start: usize, len: usize, bytes: &[u8]) {
    if start <= len {
        write_at(out, len - start, bytes);
    } else {
        write_from(out, start - len, bytes);
    }
}

/// Writes the bytes after the first `before` ones to the start of the slice, as far as it reaches.
fn write_from(out: &mut [u8], before: usize, bytes: &[u8]) {
    write_at(out, 0, &bytes[before.min(bytes.len())..]);
}

/// Writes bytes to the slice from a place, as far as it reaches.
#[inline(never)]
fn write_at(out: &mut [u8], place: usize, bytes: &[u8]) {
    if place < out.len() {
        let kept = bytes.len().min(out.len() - place);
        copy_piece(&bytes[..kept], &mut out[place..place + kept]);
    }
}

/// Copies a piece to memory of its size.
// Many pieces, such as `::`, have one or two bytes. They need no call of the C library.
#[cfg_attr(not(debug_assertions), inline(always))]
fn copy_piece(piece: &[u8], room: &mut [u8]) {
    match piece {
        [byte] => room[0] = *byte,
        [first, second] => {
            room[0] = *first;
            room[1] = *second;
        }
        _ => room.copy_from_slice(piece),
    }
}

impl<'b> TextSink for SliceSink<'b> {
    #[cfg_attr(not(debug_assertions), inline(always))]
    fn put(&mut self, s: &str) -> Result<(), SinkRefused> {
        self.put_bytes(s.as_bytes())
    }

    #[cfg_attr(not(debug_assertions), inline(always))]
    fn can_copy(&self) -> bool {
        true
    }

    #[cfg_attr(not(debug_assertions), inline(always))]
    fn held_len(&self) -> Option<usize> {
        if self.start > 0 || self.len > self.out.len() {
            return None;
        }
        Some(self.len)
    }

    fn put_again(&mut self, start: usize, len: usize) -> bool {
        let Some(place) = self.held_len() else {
            return false;
        };
        if len > self.out.len() - place {
            return false;
        }
        self.out.copy_within(start..start + len, place);
        self.len = place + len;
        true
    }

    fn is_failed(&self) -> bool {
        self.failed
    }
}
