// Made from crates/demangle_value/src/coalescing.rt by packaging/crate/erase.py: edit that file instead.
//! A sink that passes pieces on together.

use crate::demangle_sink::{SinkRefused, TextSink};
#[cfg(feature = "stream")]
use crate::demangle_value::format::Format;
use crate::demangle_value::value::Demangle;
use crate::support::arrayvec::ArrayString;

/// The most bytes that are held for a formatter.
const MOST_FORMATTED: usize = 256;

/// The most bytes that are held for a filter, which are those of the longest text of its memo.
#[cfg(feature = "stream")]
const MOST_FILTERED: usize = 2048;

/// Holds pieces of up to `MOST` bytes, and passes them to a sink together.
///
/// The sink gets the held text before a piece that does not fit after it, and by `flush`. A piece of
/// more than `MOST` bytes is passed on alone. So what the sink got is always a prefix of the text that
/// ends between two pieces, and after `flush` it is all of it.
struct CoalescingSink<'s, S: TextSink, const MOST: usize> {
    out: &'s mut S,
    held: ArrayString<MOST>,
}

impl<'s, S: TextSink, const MOST: usize> CoalescingSink<'s, S, MOST> {
    /// Returns a sink that passes pieces to this one. It holds nothing.
    fn new(out: &'s mut S) -> Self {
        CoalescingSink {
            out,
            held: ArrayString::new(),
        }
    }

    /// Passes on the held text, if there is any.
    ///
    /// # Errors
    ///
    /// Returns `SinkRefused` if the sink rejects it.
    fn flush(&mut self) -> Result<(), SinkRefused> {
        if self.held.is_empty() {
            return Ok(());
        }
        self.out.put(self.held.as_str())?;
        self.held.clear();
        Ok(())
    }

    /// Takes a piece for which there is no room after the held text.
    #[inline(never)]
    fn put_after_flush(&mut self, s: &str) -> Result<(), SinkRefused> {
        self.flush()?;
        if s.len() > MOST {
            self.out.put(s)?;
        } else {
            self.held.push_str(s);
        }
        Ok(())
    }
}

impl<'s, S: TextSink, const MOST: usize> TextSink for CoalescingSink<'s, S, MOST> {
    fn put(&mut self, s: &str) -> Result<(), SinkRefused> {
        if s.len() > self.held.remaining_capacity() {
            return self.put_after_flush(s);
        }
        self.held.push_str(s);
        Ok(())
    }

    fn is_failed(&self) -> bool {
        self.out.is_failed()
    }
}

/// Prints a symbol into a sink, as `Demangle::write_to` does, and passes its pieces on together.
///
/// # Errors
///
/// Returns `SinkRefused` if the sink rejects a text. It then got a prefix of the pieces' text.
pub(crate) fn write_coalesced<S: TextSink>(
    symbol: &Demangle<'_>,
    out: &mut S,
    include_hash: bool,
) -> Result<(), SinkRefused> {
    let mut pieces = CoalescingSink::<'_, S, MOST_FORMATTED>::new(out);
    symbol.write_to(&mut pieces, include_hash)?;
    pieces.flush()
}

/// Prints a symbol into a sink in a format, and passes its pieces on together. A text of up to
/// 2,048 bytes is passed on at once.
///
/// # Errors
///
/// Returns `SinkRefused` if the sink rejects a text. It then got a prefix of the pieces' text.
#[cfg(feature = "stream")]
pub fn write_at_once<S: TextSink>(
    symbol: &Demangle<'_>,
    out: &mut S,
    format: Format,
) -> Result<(), SinkRefused> {
    let mut pieces = CoalescingSink::<'_, S, MOST_FILTERED>::new(out);
    symbol.write_formatted(&mut pieces, format)?;
    pieces.flush()
}
