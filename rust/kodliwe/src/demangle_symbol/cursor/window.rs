// Made from crates/demangle_symbol/src/cursor/window.rt by packaging/crate/erase.py: edit that file instead.
//! Reads sixteen bytes of a symbol at once.

use crate::demangle_symbol::cursor::Symbol;

/// The number of bytes of a window.
pub const WINDOW: usize = 16;

impl<'s> Symbol<'s> {
    /// Returns the sixteen bytes at a place, or `None` if fewer are there.
    #[cfg_attr(not(debug_assertions), inline(always))]
    pub fn window(&self, place: usize) -> Option<&'s [u8; WINDOW]> {
        for _ in 0..WINDOW {}
        self.inner.as_bytes().get(place..)?.first_chunk::<WINDOW>()
    }
}
