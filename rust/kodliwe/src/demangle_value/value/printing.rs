// Made from crates/demangle_value/src/value/printing.rt by packaging/crate/erase.py: edit that file instead.
//! Prints symbols into sinks, cut at a limit.

use crate::demangle_sink::{SinkRefused, SizeLimitedFmtAdapter, TextSink, put_piece};
use crate::demangle_value::format::{Format, MAX_SIZE, TextFormat};
use crate::demangle_value::strip::without_thin_lto;
#[cfg(feature = "stream")]
use crate::demangle_value::value::is_allowed;
use crate::demangle_value::value::{Demangle, DemangleStyle};

#[cfg(feature = "stream")]
use crate::demangle_v0::{FirstPrint, Printed};

/// Prints a symbol without its suffix into a sink, cut at the limit. Fails if the sink fails.
fn write_cut<S: TextSink>(
    style: &DemangleStyle<'_>,
    out: &mut S,
    format: TextFormat,
) -> Result<(), SinkRefused> {
    let mut limited = SizeLimitedFmtAdapter::with_reread(out, format.limit, format.reread);
    let result = style.write_to(&mut limited, format);
    // Printing stops in the same way at the limit and if the sink fails. Only a sink that has not
    // failed gets the marker.
    if limited.is_limit_reached() {
        put_piece("{size limit reached}", out)
    } else {
        result
    }
}

/// Writes the pieces of a symbol into a sink, cut at the limit before the suffix. Fails if the sink
/// fails.
pub fn write_pieces<S: TextSink>(
    symbol: &Demangle<'_>,
    out: &mut S,
    format: Format,
) -> Result<(), SinkRefused> {
    let Some(style) = &symbol.style else {
        return put_piece(symbol.original, out);
    };
    let limits = TextFormat::for_text(format, symbol.original.len());
    write_cut(style, out, limits)?;
    put_piece(symbol.suffix, out)
}

impl Demangle<'_> {
    /// Prints into a sink in a format, as `write_limited` does.
    pub fn write_formatted<S: TextSink>(
        &self,
        out: &mut S,
        format: Format,
    ) -> Result<(), SinkRefused> {
        write_pieces(self, out, format)
    }

    /// Prints into a sink, cut at `limit` bytes before the suffix.
    ///
    /// The path ends before a piece that would exceed the limit. Then `{size limit reached}` and
    /// the suffix follow. A text that is not a symbol has no limit. If the sink has room for all
    /// pieces, the call succeeds.
    ///
    /// # Errors
    ///
    /// Fails exactly if the sink failed during this call. The sink then gets no further piece. A
    /// sink that keeps what it took holds the pieces before the rejected one.
    pub fn write_limited<S: TextSink>(
        &self,
        out: &mut S,
        include_hash: bool,
        limit: usize,
    ) -> Result<(), SinkRefused> {
        let format = Format::unfolded(include_hash, limit);
        self.write_formatted(out, format)
    }

    /// Prints into a sink with `_` for each list of generic arguments, cut at `limit` bytes before
    /// the suffix.
    ///
    /// So all instances of a generic function have one name: `foo::bar::<_>` for `foo::bar::<u8>`.
    /// A list is read and not printed. No reference in it is followed, and no lifetime in it is
    /// checked. If the list itself prints without an error, all else prints as by
    /// `write_limited`. A legacy symbol prints completely, because its arguments are parts
    /// of names.
    ///
    /// # Errors
    ///
    /// Fails exactly if the sink failed during this call, as `write_limited` says.
    pub fn write_folded<S: TextSink>(
        &self,
        out: &mut S,
        include_hash: bool,
        limit: usize,
    ) -> Result<(), SinkRefused> {
        let format = Format::folded(include_hash, limit);
        self.write_formatted(out, format)
    }

    /// Prints into a sink, cut at 1,000,000 bytes before the suffix, as `write_limited` does.
    #[cfg(all(test, feature = "stream"))]
    pub fn write_counted<S: TextSink>(
        &self,
        out: &mut S,
        include_hash: bool,
    ) -> Result<(), SinkRefused> {
        self.write_limited(out, include_hash, MAX_SIZE)
    }

    /// Prints into a sink, cut at 1,000,000 bytes before the suffix, with or without the hash of a
    /// legacy symbol. It does not allocate.
    ///
    /// # Errors
    ///
    /// Fails exactly if the sink failed during this call, as `write_limited` says.
    pub fn write_to<S: TextSink>(
        &self,
        out: &mut S,
        include_hash: bool,
    ) -> Result<(), SinkRefused> {
        self.write_limited(out, include_hash, MAX_SIZE)
    }
}

/// What the path of a run may have in bytes for each byte of the run, and beyond that, before the run
/// is known to be a symbol. Few paths have more. A short run may bring any number of lifetimes into
/// scope.
#[cfg(feature = "stream")]
const TIMES_RUN: usize = 4;

#[cfg(feature = "stream")]
const MORE_TEXT: usize = 64;

/// The most bytes of the path of any run before that.
#[cfg(feature = "stream")]
const MOST_TEXT: usize = 1600;

/// How many bytes may be read again for each byte of a run, and for its end, before the run is known
/// to be a symbol. Of 60 symbols of generic code one needs more, and none of a log.
#[cfg(feature = "stream")]
const FIRST_REREAD: usize = 4;

/// Returns the format of a text with the limits that hold before it is known to be a symbol.
#[cfg(feature = "stream")]
#[cfg_attr(not(debug_assertions), inline(always))]
fn first_format(text: &str, format: TextFormat) -> TextFormat {
    let reread = text.len().saturating_add(1).saturating_mul(FIRST_REREAD);
    let most = match format.reread {
        Some(greatest) => greatest.min(reread),
        None => reread,
    };
    let limit = text
        .len()
        .saturating_mul(TIMES_RUN)
        .saturating_add(MORE_TEXT)
        .min(MOST_TEXT);
    TextFormat {
        limit: format.limit.min(limit),
        reread: Some(most),
        ..format
    }
}

/// Returns whether a run, or a run with the `_` before it, starts as a v0 symbol.
#[cfg(feature = "stream")]
#[cfg_attr(not(debug_assertions), inline(always))]
pub fn starts_as_v0(run: &[u8]) -> bool {
    (run.len() > 2) && ((run[1] == b'R') | ((run[1] == b'_') & (run[2] == b'R')))
}

/// What is known of a run that was printed before it was known to be a symbol.
#[cfg(feature = "stream")]
#[derive(Clone, Copy)]
pub enum Tried<'a> {
    /// The run is a symbol, and its text was printed.
    Printed,
    /// A part of a path may be printed, whose references used up so much fuel. The run was read as
    /// this text, symbol or not. If there is none, `read_run` says what the run is.
    InVain(Option<Demangle<'a>>, usize),
}

/// Prints a v0 run before it is known to be a symbol, as `demangle_v0::print_first` does. A run is
/// ASCII.
///
/// Nothing is known of a path that is much longer than the run, or for which many bytes are read again.
#[cfg(feature = "stream")]
#[inline(never)]
fn print_v0_first<'a, S: TextSink>(run: &'a str, out: &mut S, format: Format) -> Tried<'a> {
    let text = without_thin_lto(run);
    let limits = TextFormat::for_text(format, text.len());
    let first = first_format(text, limits);
    let mut limited = SizeLimitedFmtAdapter::with_reread(out, first.limit, first.reread);
    let FirstPrint { printed, fuel } =
        crate::demangle_v0::print_first(text, &mut limited, first.form);
    match printed {
        Printed::Symbol(symbol, suffix) => {
            let allowed = is_allowed(suffix);
            if allowed && put_piece(suffix, out).is_ok() {
                return Tried::Printed;
            }
            let style = DemangleStyle::V0(symbol);
            let read = Demangle::with_style(text, style, suffix, allowed);
            Tried::InVain(Some(read), fuel)
        }
        // A run that starts as a v0 symbol has not the prefix of a legacy one.
        Printed::NoSymbol => Tried::InVain(Some(Demangle::without_style(text)), fuel),
        Printed::Unknown => Tried::InVain(None, fuel),
    }
}

/// Prints a run that may be a legacy symbol, in one pass, as `demangle_legacy::demangle_printed`
/// does. A run is ASCII.
#[cfg(feature = "stream")]
#[inline(never)]
fn print_legacy_first<'a, S: TextSink>(run: &'a str, out: &mut S, format: Format) -> Tried<'a> {
    let text = without_thin_lto(run);
    let limits = TextFormat::for_text(format, text.len());
    let mut limited = SizeLimitedFmtAdapter::new(out, limits.limit);
    let read = crate::demangle_legacy::demangle_printed(text, &mut limited, limits.form);
    let Some((_, suffix)) = read else {
        return Tried::InVain(None, 0);
    };
    if is_allowed(suffix) && put_piece(suffix, out).is_ok() {
        Tried::Printed
    } else {
        Tried::InVain(None, 0)
    }
}

/// Prints a run before it is known to be a symbol. A run is ASCII. Returns what is known of it
/// then.
#[cfg(feature = "stream")]
#[cfg_attr(not(debug_assertions), inline(always))]
pub fn print_first<'a, S: TextSink>(run: &'a str, out: &mut S, format: Format) -> Tried<'a> {
    if starts_as_v0(run.as_bytes()) {
        return print_v0_first(run, out, format);
    }
    print_legacy_first(run, out, format)
}

/// Prints a text into a sink; its path has `path_len` bytes. Fails if the sink fails.
fn write_pieces_with_path_len<S: TextSink>(
    text: &str,
    path_len: usize,
    out: &mut S,
    include_hash: bool,
    limit: usize,
) -> Result<(), SinkRefused> {
    let format = Format::unfolded(include_hash, limit);

    let Some(symbol) = crate::demangle_v0::ascii_symbol(text) else {
        let read = Demangle::read(text, false);
        return write_pieces(&read, out, format);
    };
    // The caller may pass any number.
    let suffix = &text[path_len.min(text.len())..];
    let style = DemangleStyle::V0(symbol);
    let limits = TextFormat::for_text(format, text.len());
    write_cut(&style, out, limits)?;
    put_piece(suffix, out)
}

/// Prints a symbol as `Demangle::write_limited` does, without parsing the end of its path again.
/// `path_len` is the result of `Demangle::path_len` for the same text.
///
/// A suffix that ThinLTO appended is removed first. For every text and every number, the call ends,
/// and it prints at most the bytes of the limit, the marker and the text. An ASCII text with a v0
/// prefix prints its first path as far as the grammar accepts it, and then the text from `path_len`
/// on. Any other text prints as `demangle` prints it. It does not allocate.
///
/// # Errors
///
/// Fails exactly if the sink failed during this call.
pub fn write_with_path_len<S: TextSink>(
    text: &str,
    path_len: usize,
    out: &mut S,
    include_hash: bool,
    limit: usize,
) -> Result<(), SinkRefused> {
    write_pieces_with_path_len(without_thin_lto(text), path_len, out, include_hash, limit)
}
