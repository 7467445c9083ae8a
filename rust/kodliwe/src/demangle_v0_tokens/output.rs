// Made from crates/demangle_v0_tokens/src/output.rt by packaging/crate/erase.py: edit that file instead.
//! The outputs to which the parser sends its tokens: a sink, or none.

use crate::demangle_sink::{SinkRefused, SizeLimitedFmtAdapter, TextSink};
use crate::demangle_v0_tokens::source::Source;
use crate::demangle_v0_tokens::token::Token;

/// Receives the tokens that the parser reads.
///
/// The parser is generic over its output. With `NoOutput` it only validates a symbol. With a
/// `SizeLimitedFmtAdapter` it prints one.
pub trait Output {
    /// Returns `true` if tokens are printed.
    fn is_printing(&self) -> bool;

    /// Returns `true` if the text of the target that is next is looked up, to be put again.
    fn looks_up(&self) -> bool;

    /// Prints a token, piece by piece.
    ///
    /// # Errors
    ///
    /// Returns `SinkRefused` if the sink or the size limit rejects a piece. No later piece is sent.
    fn emit(&mut self, source: &Source<'_>, token: &Token) -> Result<(), SinkRefused>;

    /// Counts the bytes that a reference may make the parser read again, and one more.
    ///
    /// # Errors
    ///
    /// Returns `SinkRefused` if the output allows fewer.
    fn follow(&mut self, bytes: usize) -> Result<(), SinkRefused>;

    /// Gives back these bytes, which were not read, and one more. Gives back none for `None`.
    fn give_back(&mut self, bytes: Option<usize>);

    /// Prints the token of a syntax error.
    ///
    /// # Errors
    ///
    /// Returns `SinkRefused` as `emit` does, and always if nothing is printed.
    fn emit_error(&mut self, source: &Source<'_>, token: &Token) -> Result<(), SinkRefused>;
}

/// An output that prints nothing. It is used to validate a symbol.
#[derive(Clone, Copy)]
pub struct NoOutput;

impl Output for NoOutput {
    #[cfg_attr(not(debug_assertions), inline(always))]
    fn is_printing(&self) -> bool {
        false
    }

    #[cfg_attr(not(debug_assertions), inline(always))]
    fn looks_up(&self) -> bool {
        false
    }

    #[cfg_attr(not(debug_assertions), inline(always))]
    fn emit(&mut self, _source: &Source<'_>, _token: &Token) -> Result<(), SinkRefused> {
        Ok(())
    }

    #[cfg_attr(not(debug_assertions), inline(always))]
    fn follow(&mut self, _bytes: usize) -> Result<(), SinkRefused> {
        Ok(())
    }

    #[cfg_attr(not(debug_assertions), inline(always))]
    fn give_back(&mut self, _bytes: Option<usize>) {}

    #[cfg_attr(not(debug_assertions), inline(always))]
    fn emit_error(&mut self, _source: &Source<'_>, _token: &Token) -> Result<(), SinkRefused> {
        Err(SinkRefused)
    }
}

impl<'s, S: TextSink> Output for SizeLimitedFmtAdapter<'s, S> {
    #[cfg_attr(not(debug_assertions), inline(always))]
    fn is_printing(&self) -> bool {
        true
    }

    #[cfg_attr(not(debug_assertions), inline(always))]
    fn looks_up(&self) -> bool {
        SizeLimitedFmtAdapter::looks_up(self)
    }

    #[cfg_attr(not(debug_assertions), inline(always))]
    fn emit(&mut self, source: &Source<'_>, token: &Token) -> Result<(), SinkRefused> {
        source.render(token, self)
    }

    #[cfg_attr(not(debug_assertions), inline(always))]
    fn follow(&mut self, bytes: usize) -> Result<(), SinkRefused> {
        SizeLimitedFmtAdapter::follow(self, bytes)
    }

    #[cfg_attr(not(debug_assertions), inline(always))]
    fn give_back(&mut self, bytes: Option<usize>) {
        SizeLimitedFmtAdapter::give_back(self, bytes)
    }

    #[cfg_attr(not(debug_assertions), inline(always))]
    fn emit_error(&mut self, source: &Source<'_>, token: &Token) -> Result<(), SinkRefused> {
        source.render(token, self)
    }
}
