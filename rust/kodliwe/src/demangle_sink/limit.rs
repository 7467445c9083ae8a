// Made from crates/demangle_sink/src/limit.rt by packaging/crate/erase.py: edit that file instead.
//! Limits the size of the printed text, and the bytes that are read again for it.

use crate::demangle_sink::{SinkRefused, TextSink};

/// How many bytes may be read again for references at most, if their number is limited, and how many
/// of them are used.
#[derive(Clone, Copy)]
pub struct Reread {
    pub most: Option<usize>,
    pub used: usize,
    /// The most that were used at once.
    pub high: usize,
    /// How many references were followed.
    pub references: usize,
    /// Whether no reference led to an error, and none of the numbers became too great.
    pub is_known: bool,
}

/// How many references are followed before the text of a target is looked up. Most symbols have no
/// more.
const FIRST_REFERENCES: usize = 2;

/// How many lookups may find no text before there are no more.
const LOOKUPS: u8 = 13;

/// How many more lookups there may be after one that found a text.
const MORE_LOOKUPS: u8 = 3;

/// A text that a sink holds, and the bytes that its references made the parser read again.
#[derive(Clone, Copy)]
pub struct HeldText {
    /// The index of its first byte in what the sink took.
    pub start: usize,
    pub len: usize,
    /// How many bytes were read again.
    pub reread: usize,
    /// How many of them were used at once at most.
    pub peak: usize,
    /// How many references were followed.
    pub references: usize,
}

impl Reread {
    /// Says that so many bytes are used.
    #[cfg_attr(not(debug_assertions), inline(always))]
    fn use_at_once(&mut self, used: usize) {
        self.used = used;
        if used > self.high {
            self.high = used;
        }
    }

    /// Follows a reference that uses so many bytes and one more. Returns `false`, and changes nothing,
    /// if fewer are left. If their number is not limited, at most `usize::MAX` are counted. If the
    /// reference is not counted, the other numbers are no longer known.
    #[cfg_attr(not(debug_assertions), inline(always))]
    fn follow(&mut self, bytes: usize, is_counted: bool) -> bool {
        let used = match self.most {
            None if !is_counted => {
                self.is_known = false;
                return true;
            }
            None => self.used.saturating_add(bytes).saturating_add(1),
            Some(most) => {
                let Some(used) = sum_within(self.used, bytes, most) else {
                    return false;
                };
                used
            }
        };
        if is_counted {
            self.use_at_once(used);
            self.references = self.references.saturating_add(1);
        } else {
            self.used = used;
            self.is_known = false;
        }
        true
    }

    /// Follows the references of a text that is put again. Returns `false`, and changes nothing, if
    /// fewer bytes are left, or so many can't be counted.
    #[cfg_attr(not(debug_assertions), inline(always))]
    fn follow_again(&mut self, text: HeldText) -> bool {
        if text.references == 0 {
            return true;
        }
        let Some(peak) = self.used.checked_add(text.peak) else {
            return false;
        };
        if self.most.is_some_and(|most| peak > most) || text.reread > text.peak {
            return false;
        }
        let used = self.used + text.reread;
        self.use_at_once(peak);
        self.used = used;
        self.references = self.references.saturating_add(text.references);
        true
    }
}

/// Returns one more than the sum of two numbers, or `None` if that is more than `most`.
#[cfg_attr(not(debug_assertions), inline(always))]
fn sum_within(one: usize, other: usize, most: usize) -> Option<usize> {
    if other >= most || one >= most - other {
        return None;
    }
    Some(one + other + 1)
}

/// Passes pieces to a sink while their total size is within a limit.
pub struct SizeLimitedFmtAdapter<'s, S: TextSink> {
    out: &'s mut S,
    /// How many more bytes may be passed to the sink.
    remaining: usize,
    /// How many bytes may be read again.
    reread: Reread,
    /// Whether a piece or a reference exceeded its limit.
    is_limit_reached: bool,
    /// How many more references may be followed whose text is looked up.
    lookups_left: u8,
}

impl<'s, S: TextSink> SizeLimitedFmtAdapter<'s, S> {
    /// Returns an adapter that passes at most `limit` bytes to `out`.
    #[cfg(feature = "stream")]
    pub fn new(out: &'s mut S, limit: usize) -> Self {
        SizeLimitedFmtAdapter::with_reread(out, limit, None)
    }

    /// Returns an adapter that passes at most `limit` bytes to `out`, for which at most `reread`
    /// bytes are read again, if that is a number.
    pub fn with_reread(out: &'s mut S, limit: usize, reread: Option<usize>) -> Self {
        SizeLimitedFmtAdapter {
            out,
            remaining: limit,
            reread: Reread {
                most: reread,
                used: 0,
                high: 0,
                references: 0,
                is_known: true,
            },
            is_limit_reached: false,
            lookups_left: LOOKUPS,
        }
    }

    /// Counts the bytes that a reference may make the parser read again, and one more.
    ///
    /// # Errors
    ///
    /// Returns `SinkRefused` if fewer are left.
    #[cfg_attr(not(debug_assertions), inline(always))]
    pub fn follow(&mut self, bytes: usize) -> Result<(), SinkRefused> {
        let is_counted = self.can_copy() && self.lookups_left > 0;
        if !self.reread.follow(bytes, is_counted) {
            self.is_limit_reached = true;
            return Err(SinkRefused);
        }
        if is_counted && self.reread.references > FIRST_REFERENCES {
            self.lookups_left -= 1;
        }
        Ok(())
    }

    /// Returns whether the sink can take bytes again that it holds.
    #[cfg_attr(not(debug_assertions), inline(always))]
    pub fn can_copy(&self) -> bool {
        self.out.can_copy()
    }

    /// Returns whether the text of the target that is next is looked up, and noted if the sink does
    /// not hold it.
    ///
    /// The first references of a symbol are printed without that. So are all others after too many
    /// lookups found no text.
    #[cfg_attr(not(debug_assertions), inline(always))]
    pub fn looks_up(&self) -> bool {
        self.can_copy() && self.lookups_left > 0 && self.reread.references > FIRST_REFERENCES
    }

    /// Gives back these bytes, which were not read, and one more. Gives back none for `None`, which
    /// says that a reference led to an error.
    #[cfg_attr(not(debug_assertions), inline(always))]
    pub fn give_back(&mut self, bytes: Option<usize>) {
        match bytes {
            Some(bytes) => {
                self.reread.used = self.reread.used.saturating_sub(bytes).saturating_sub(1);
            }
            None => self.reread.is_known = false,
        }
    }

    /// Returns the number of bytes that the sink holds, or `None` if it can't take them again.
    #[cfg_attr(not(debug_assertions), inline(always))]
    pub fn held_len(&self) -> Option<usize> {
        self.out.held_len()
    }

    /// Returns how many bytes are read again, and how many were at once at most.
    #[cfg_attr(not(debug_assertions), inline(always))]
    pub fn reread(&self) -> Reread {
        self.reread
    }

    /// Puts a text that the sink holds again. Returns `false`, and changes nothing, if the text is empty
    /// or exceeds a limit, or if the sink can't take it.
    pub fn put_again(&mut self, text: HeldText) -> bool {
        let reread = self.reread;
        if text.len == 0 || text.len > self.remaining || !self.reread.follow_again(text) {
            return false;
        }
        if !self.out.put_again(text.start, text.len) {
            self.reread = reread;
            return false;
        }
        self.remaining -= text.len;
        self.lookups_left = self.lookups_left.saturating_add(MORE_LOOKUPS);
        true
    }

    /// Returns `true` if a piece or a reference exceeded its limit.
    pub fn is_limit_reached(&self) -> bool {
        self.is_limit_reached
    }

    /// Passes a piece to the sink.
    ///
    /// # Errors
    ///
    /// Returns `SinkRefused` if the piece exceeds the limit, or if the sink rejects it. A piece
    /// that exceeds the limit is not passed.
    #[cfg_attr(not(debug_assertions), inline(always))]
    pub fn put(&mut self, s: &str) -> Result<(), SinkRefused> {
        if s.len() > self.remaining {
            self.is_limit_reached = true;
            return Err(SinkRefused);
        }
        self.remaining -= s.len();
        self.out.put(s)
    }
}

/// Puts one piece into a sink, without a limit.
///
/// # Errors
///
/// Returns `SinkRefused` if the sink rejects the piece.
pub fn put_piece<S: TextSink>(s: &str, out: &mut S) -> Result<(), SinkRefused> {
    out.put(s)
}
