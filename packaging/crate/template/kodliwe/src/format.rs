//! How symbols are printed.
pub use crate::rustc_demangle::RereadLimit;
use crate::rustc_demangle::SizeLimit;
use crate::{MAX_SIZE, rustc_demangle};

/// How a symbol is printed.
///
/// [`Format::new`] prints without hashes, prints generic arguments, and gives no limits. Each method
/// returns the same format with one of these changed.
///
/// A call over one symbol, and one that writes a text to a sink, then cuts each path at
/// [`MAX_SIZE`] bytes. A call over bytes cuts the path of a symbol of n bytes at 999 n - 20 bytes,
/// and at `MAX_SIZE` at most. So it writes at most 1,000 bytes for each byte that it reads. It also
/// has [`RereadLimit::Linear`], so its time is linear in the length of what it reads.
///
/// ```
/// use kodliwe::{ArraySink, Format, demangle};
///
/// const FOLDED: Format = Format::new().with_folded_arguments(true);
///
/// let mut path = ArraySink::<32>::new();
/// demangle("_RINvC3foo3barhE").write_formatted(&mut path, FOLDED)?;
/// assert_eq!(path.as_str(), "foo::bar::<_>");
/// # Ok::<(), kodliwe::SinkRefused>(())
/// ```
#[derive(Clone, Copy, Debug, PartialEq, Eq, Hash)]
pub struct Format {
    has_hash: bool,
    has_folded_arguments: bool,
    limit: Option<usize>,
    reread: Option<RereadLimit>,
}

impl Format {
    /// Returns the format without hashes, with generic arguments, and without limits of its own.
    pub const fn new() -> Format {
        Format {
            has_hash: false,
            has_folded_arguments: false,
            limit: None,
            reread: None,
        }
    }

    /// Sets whether the hash of a legacy symbol is printed, and of a v0 symbol the disambiguators
    /// of crates and the types of numbers.
    pub const fn with_hash(self, has_hash: bool) -> Format {
        Format { has_hash, ..self }
    }

    /// Sets whether `_` is printed for each list of generic arguments of a v0 symbol.
    ///
    /// The arguments of a legacy symbol are parts of names, and are always printed.
    pub const fn with_folded_arguments(self, has_folded_arguments: bool) -> Format {
        Format {
            has_folded_arguments,
            ..self
        }
    }

    /// Sets the most bytes that are printed for a symbol, without its suffix.
    pub const fn with_limit(self, limit: usize) -> Format {
        Format {
            limit: Some(limit),
            ..self
        }
    }

    /// Sets the most bytes of a v0 symbol that its references may make a print of it read again.
    pub const fn with_reread_limit(self, reread: RereadLimit) -> Format {
        Format {
            reread: Some(reread),
            ..self
        }
    }

    fn form(self) -> rustc_demangle::Form {
        rustc_demangle::Form {
            include_hash: self.has_hash,
            fold_arguments: self.has_folded_arguments,
        }
    }

    /// Returns the format for calls over symbols, and for those that write to a sink.
    pub(crate) fn for_symbols(self) -> rustc_demangle::Format {
        rustc_demangle::Format {
            form: self.form(),
            limit: SizeLimit::Bytes(self.limit.unwrap_or(MAX_SIZE)),
            reread: self.reread.unwrap_or(RereadLimit::Unlimited),
        }
    }

    /// Returns the format for calls over bytes.
    pub(crate) fn for_bytes(self) -> rustc_demangle::Format {
        rustc_demangle::Format {
            form: self.form(),
            limit: self.limit.map_or(SizeLimit::Linear, SizeLimit::Bytes),
            reread: self.reread.unwrap_or(RereadLimit::Linear),
        }
    }
}

impl Default for Format {
    fn default() -> Format {
        Format::new()
    }
}
