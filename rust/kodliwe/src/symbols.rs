//! Symbols, and texts in memory.
use crate::Format;
use crate::demangle_sink::{SinkRefused, TextSink};
use crate::rustc_demangle;
use core::fmt;

/// A text, demangled if it is a Rust symbol.
///
/// [`Display`](fmt::Display) and [`Debug`](fmt::Debug) print the path that the symbol names. The
/// alternate form (`{:#}`) leaves out the hash of a legacy symbol, and of a v0 symbol the
/// disambiguators of crates and the types of numbers. A text that is not a symbol is printed
/// unchanged. Width, precision and other flags have no effect.
///
/// A path is cut at 1,000,000 bytes: `{size limit reached}` and the symbol's suffix follow.
///
/// ```
/// let symbol = kodliwe::demangle("_RNvCs8a2262Dv4r_3mio4poll");
/// assert_eq!(format!("{symbol}"), "mio[1888792e1a78739]::poll");
/// assert_eq!(format!("{symbol:#}"), "mio::poll");
/// ```
#[derive(Clone, Copy)]
pub struct Demangle<'a>(rustc_demangle::Demangle<'a>);

impl<'a> Demangle<'a> {
    /// Returns the original text, without a suffix that ThinLTO added.
    ///
    /// ```
    /// let symbol = kodliwe::demangle("_ZN3foo3barE.llvm.9D1C9369");
    /// assert_eq!(symbol.as_str(), "_ZN3foo3barE");
    /// ```
    pub fn as_str(&self) -> &'a str {
        self.0.as_str()
    }

    /// Writes the path to a sink, with the hash if `include_hash` is true.
    ///
    /// # Errors
    ///
    /// Fails if the sink rejects a piece. The sink gets no piece after that.
    ///
    /// ```
    /// let mut path = kodliwe::ArraySink::<32>::new();
    /// kodliwe::demangle("_ZN3foo3barE").write_to(&mut path, false)?;
    /// assert_eq!(path.as_str(), "foo::bar");
    /// # Ok::<(), kodliwe::SinkRefused>(())
    /// ```
    pub fn write_to<S: TextSink>(
        &self,
        out: &mut S,
        include_hash: bool,
    ) -> Result<(), SinkRefused> {
        self.0.write_to(out, include_hash)
    }

    /// Writes the path to a sink as [`write_to`](Demangle::write_to) does, cut at `limit` bytes.
    ///
    /// The path ends before the first piece that exceeds the limit. `{size limit reached}` and the
    /// symbol's suffix then follow. A text that is not a symbol has no limit.
    ///
    /// # Errors
    ///
    /// Fails if the sink rejects a piece.
    ///
    /// ```
    /// let mut path = kodliwe::ArraySink::<32>::new();
    /// kodliwe::demangle("_ZN3foo3barE").write_limited(&mut path, false, 5)?;
    /// assert_eq!(path.as_str(), "foo::{size limit reached}");
    /// # Ok::<(), kodliwe::SinkRefused>(())
    /// ```
    pub fn write_limited<S: TextSink>(
        &self,
        out: &mut S,
        include_hash: bool,
        limit: usize,
    ) -> Result<(), SinkRefused> {
        self.0.write_limited(out, include_hash, limit)
    }

    /// Writes the path to a sink as [`write_limited`](Demangle::write_limited) does, with `_` for
    /// each list of generic arguments.
    ///
    /// So all instances of a generic function have one name. A legacy symbol prints completely,
    /// because its arguments are parts of names.
    ///
    /// # Errors
    ///
    /// Fails if the sink rejects a piece.
    ///
    /// ```
    /// let mut path = kodliwe::ArraySink::<32>::new();
    /// kodliwe::demangle("_RINvC3foo3barhE").write_folded(&mut path, false, 1_000)?;
    /// assert_eq!(path.as_str(), "foo::bar::<_>");
    /// # Ok::<(), kodliwe::SinkRefused>(())
    /// ```
    pub fn write_folded<S: TextSink>(
        &self,
        out: &mut S,
        include_hash: bool,
        limit: usize,
    ) -> Result<(), SinkRefused> {
        self.0.write_folded(out, include_hash, limit)
    }

    /// Writes the path to a sink in a format. A text that is not a symbol is written unchanged.
    ///
    /// # Errors
    ///
    /// Fails if the sink rejects a piece.
    ///
    /// ```
    /// use kodliwe::Format;
    ///
    /// let mut path = kodliwe::ArraySink::<32>::new();
    /// kodliwe::demangle("_ZN3foo3barE").write_formatted(&mut path, Format::new().with_limit(5))?;
    /// assert_eq!(path.as_str(), "foo::{size limit reached}");
    /// # Ok::<(), kodliwe::SinkRefused>(())
    /// ```
    pub fn write_formatted<S: TextSink>(
        &self,
        out: &mut S,
        format: Format,
    ) -> Result<(), SinkRefused> {
        self.0.write_formatted(out, format.for_symbols())
    }
}

impl fmt::Display for Demangle<'_> {
    fn fmt(&self, f: &mut fmt::Formatter<'_>) -> fmt::Result {
        fmt::Display::fmt(&self.0, f)
    }
}

impl fmt::Debug for Demangle<'_> {
    fn fmt(&self, f: &mut fmt::Formatter<'_>) -> fmt::Result {
        fmt::Display::fmt(&self.0, f)
    }
}

/// The error of [`try_demangle`]: the text is not a Rust symbol.
#[derive(Debug, Clone)]
pub struct TryDemangleError(());

impl fmt::Display for TryDemangleError {
    fn fmt(&self, f: &mut fmt::Formatter<'_>) -> fmt::Result {
        f.write_str("the text is not a Rust symbol")
    }
}

impl core::error::Error for TryDemangleError {}

/// Reads a text as a Rust symbol. A text that is not a symbol prints unchanged.
///
/// First removes a suffix that ThinLTO added, even from a text that is not a symbol.
///
/// ```
/// use kodliwe::demangle;
///
/// assert_eq!(demangle("_RNvC3foo3bar").to_string(), "foo::bar");
/// assert_eq!(demangle("main").to_string(), "main");
/// ```
#[inline]
pub fn demangle(symbol: &str) -> Demangle<'_> {
    Demangle(rustc_demangle::demangle(symbol))
}

/// Reads a text as a Rust symbol.
///
/// # Errors
///
/// Fails if the text is not a Rust symbol.
///
/// ```
/// use kodliwe::try_demangle;
///
/// assert!(try_demangle("_RNvC3foo3bar").is_ok());
/// assert!(try_demangle("main").is_err());
/// ```
#[inline]
pub fn try_demangle(symbol: &str) -> Result<Demangle<'_>, TryDemangleError> {
    match rustc_demangle::try_demangle(symbol) {
        Ok(read) => Ok(Demangle(read)),
        Err(_) => Err(TryDemangleError(())),
    }
}

/// Writes a text to a sink, with each Rust symbol in it demangled.
///
/// A symbol begins with `_ZN` or `_R`, and continues with all ASCII letters, digits, `_`, `.` and
/// `$` that follow. All other text is written unchanged.
///
/// This is the rule of `rustc_demangle::demangle_stream`: a symbol that begins with `_RC` is replaced
/// too, and the `_` that macOS writes before a symbol stays. [`demangle_slice`] has the rule of
/// `kodliwe`, and of the calls for C, Python and pages.
///
/// # Errors
///
/// Fails if the sink rejects a piece.
///
/// ```
/// let mut text = kodliwe::ArraySink::<32>::new();
/// kodliwe::demangle_text("at _ZN3foo3barE:7", &mut text, false)?;
/// assert_eq!(text.as_str(), "at foo::bar:7");
/// # Ok::<(), kodliwe::SinkRefused>(())
/// ```
pub fn demangle_text<S: TextSink>(
    text: &str,
    out: &mut S,
    include_hash: bool,
) -> Result<(), SinkRefused> {
    rustc_demangle::demangle_text(text, out, include_hash)
}

/// Writes a text to a sink as [`demangle_text`] does, with each path cut at `limit` bytes.
///
/// # Errors
///
/// Fails if the sink rejects a piece.
pub fn demangle_text_limited<S: TextSink>(
    text: &str,
    out: &mut S,
    include_hash: bool,
    limit: usize,
) -> Result<(), SinkRefused> {
    rustc_demangle::demangle_text_limited(text, out, include_hash, limit)
}

/// Writes a text to a sink as [`demangle_text`] does, with each symbol printed in a format.
///
/// # Errors
///
/// Fails if the sink rejects a piece.
///
/// ```
/// let format = kodliwe::Format::new().with_folded_arguments(true);
/// let mut text = kodliwe::ArraySink::<32>::new();
/// kodliwe::demangle_text_formatted("at _RINvC3foo3barhE:7", &mut text, format)?;
/// assert_eq!(text.as_str(), "at foo::bar::<_>:7");
/// # Ok::<(), kodliwe::SinkRefused>(())
/// ```
pub fn demangle_text_formatted<S: TextSink>(
    text: &str,
    out: &mut S,
    format: Format,
) -> Result<(), SinkRefused> {
    rustc_demangle::demangle_text_formatted(text, out, format.for_symbols())
}

/// Writes bytes to `out` with each Rust symbol in them demangled, as far as there is room. Returns
/// the number of bytes of the complete text.
///
/// The bytes need not be UTF-8. Symbols are found as by `demangle_bytes`: one that begins with `_RC`
/// stays, as in `v1.0_RC0`, and a path also replaces the single `_` that macOS writes before a
/// symbol. Each path is cut at `limit` bytes. What its references make it read again also cuts it
/// ([`RereadLimit::Linear`](crate::RereadLimit::Linear)). Returns `None` if the number of bytes
/// exceeds `usize::MAX`.
///
/// ```
/// let mut out = [0; 8];
/// let len = kodliwe::demangle_slice(b"at _ZN3foo3barE \xFF", &mut out, false, 1_000);
/// assert_eq!(len, Some(13));
/// assert_eq!(&out, b"at foo::");
/// ```
pub fn demangle_slice(
    text: &[u8],
    out: &mut [u8],
    include_hash: bool,
    limit: usize,
) -> Option<usize> {
    rustc_demangle::demangle_slice(text, out, include_hash, limit)
}

/// Writes bytes to `out` as [`demangle_slice`] does, with each symbol printed in a format.
pub fn demangle_slice_formatted(text: &[u8], out: &mut [u8], format: Format) -> Option<usize> {
    rustc_demangle::demangle_slice_formatted(text, out, format.for_bytes())
}
