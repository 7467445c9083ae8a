// Made from crates/demangle_value/src/format.rt by packaging/crate/erase.py: edit that file instead.
//! The format in which symbols are printed.

use crate::demangle_symbol::form::Form;

/// The most bytes of a path without a limit that a caller gives.
pub const MAX_SIZE: usize = 1_000_000;

/// The bytes that may be read again for each byte of a symbol, with a linear limit.
const REREAD_A_BYTE: usize = 384;

/// The most bytes that may be read again for a symbol of any length, with a linear limit.
const MAX_REREAD: usize = 384_000_000;

/// The most bytes of a path before the marker `{size limit reached}` and the suffix.
#[derive(Clone, Copy, Debug, PartialEq, Eq, Hash)]
pub enum SizeLimit {
    /// This many.
    Bytes(usize),
    /// At most 1,000,000, and at most 999 for each byte of the symbol, less 20. So with the marker
    /// and the suffix, a symbol prints at most 1,000 bytes for each of its own.
    Linear,
}

impl SizeLimit {
    /// Returns the most bytes of the path of a symbol of so many bytes.
    fn bytes_within(self, len: usize) -> usize {
        match self {
            SizeLimit::Bytes(limit) => limit,
            SizeLimit::Linear => len.saturating_mul(999).saturating_sub(20).min(MAX_SIZE),
        }
    }
}

/// The most bytes of a v0 symbol that its back references may make a print of it read again.
///
/// A reference uses the bytes from its target to the end of the symbol, and one more. When the
/// target was printed, those after its end are free again. If a reference would use more bytes than
/// are left, the path ends, and the marker `{size limit reached}` and the suffix follow.
#[derive(Clone, Copy, Debug, PartialEq, Eq, Hash)]
pub enum RereadLimit {
    /// Any number. Then only the limit of the path's bytes limits the time that a print takes.
    Unlimited,
    /// This many.
    Bytes(usize),
    /// 384 for each byte of the symbol, and at most 384,000,000. If the bytes of its paths are too,
    /// so is the time.
    Linear,
}

impl RereadLimit {
    /// Returns the most bytes that may be read again for a symbol of so many bytes, if their number
    /// is limited.
    fn reread_within(self, len: usize) -> Option<usize> {
        match self {
            RereadLimit::Unlimited => None,
            RereadLimit::Bytes(limit) => Some(limit),
            RereadLimit::Linear => Some(len.saturating_mul(REREAD_A_BYTE).min(MAX_REREAD)),
        }
    }
}

/// Returns the form with generic arguments.
pub const fn unfolded_form(include_hash: bool) -> Form {
    Form {
        include_hash,
        fold_arguments: false,
    }
}

/// How symbols are printed: in which form, and cut at which limits.
///
/// The calls without a `Format` print generic arguments, and read any number of bytes again.
#[derive(Clone, Copy, Debug, PartialEq, Eq)]
pub struct Format {
    /// What is printed of a symbol.
    pub form: Form,
    /// The most bytes of a path.
    pub limit: SizeLimit,
    /// The most bytes that are read again for a path.
    pub reread: RereadLimit,
}

/// A format with the limits of one text.
#[derive(Clone, Copy)]
pub struct TextFormat {
    pub form: Form,
    /// The most bytes of the path.
    pub limit: usize,
    /// The most bytes that are read again, if their number is limited.
    pub reread: Option<usize>,
}

impl TextFormat {
    /// Returns a format with the limits of a text of so many bytes.
    pub fn for_text(format: Format, len: usize) -> TextFormat {
        TextFormat {
            form: format.form,
            limit: format.limit.bytes_within(len),
            reread: format.reread.reread_within(len),
        }
    }
}

impl Format {
    /// Returns the format with generic arguments, with or without the hash, that cuts the path of a
    /// symbol at `limit` bytes.
    #[inline]
    pub const fn unfolded(include_hash: bool, limit: usize) -> Self {
        Format {
            form: unfolded_form(include_hash),
            limit: SizeLimit::Bytes(limit),
            reread: RereadLimit::Unlimited,
        }
    }

    /// Returns the same format, but with `_` for each list of generic arguments.
    #[inline]
    pub const fn folded(include_hash: bool, limit: usize) -> Self {
        let form = Form {
            include_hash,
            fold_arguments: true,
        };
        Format {
            form,
            limit: SizeLimit::Bytes(limit),
            reread: RereadLimit::Unlimited,
        }
    }

    /// Returns the format in which texts are filtered: in a form, with a limit of bytes, and with a
    /// linear limit of the bytes that are read again.
    #[inline]
    pub const fn bounded(form: Form, limit: SizeLimit) -> Self {
        Format {
            form,
            limit,
            reread: RereadLimit::Linear,
        }
    }
}
