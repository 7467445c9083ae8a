// Made from crates/demangle_legacy/src/value.rt by packaging/crate/erase.py: edit that file instead.
//! The value of a parsed legacy symbol.

use crate::demangle_legacy::elements::element_at;
use crate::demangle_legacy::printing::{is_omitted, put_element};
use crate::demangle_sink::{SinkRefused, SizeLimitedFmtAdapter, TextSink};
use crate::demangle_symbol::cursor::Symbol;
use crate::demangle_symbol::form::Form;

/// A legacy symbol that was parsed.
#[derive(Clone, Copy)]
pub struct Demangle<'s> {
    inner: Symbol<'s>,
}

impl<'s> Demangle<'s> {
    pub(super) fn new(inner: Symbol<'s>) -> Demangle<'s> {
        Demangle { inner }
    }

    /// Puts the elements with `::` between them. The hash is omitted unless `form` includes it.
    ///
    /// # Errors
    ///
    /// Returns `SinkRefused` if the sink or the size limit rejects a piece. No later piece is sent.
    pub fn write_to<S: TextSink>(
        &self,
        out: &mut SizeLimitedFmtAdapter<'_, S>,
        form: Form,
    ) -> Result<(), SinkRefused> {
        print_elements(&self.inner, out, form)?;
        Ok(())
    }
}

/// Puts the elements of a text with `::` between them, before it is known whether an `E` follows
/// the last one. Returns the place after the `E`, or `None` if there is no `E`: then the text is
/// not a legacy symbol. The hash is omitted unless `form` includes it.
///
/// Fails if the sink or the limit rejects a piece. No later piece is sent.
pub(super) fn print_elements<S: TextSink>(
    symbol: &Symbol<'_>,
    out: &mut SizeLimitedFmtAdapter<'_, S>,
    form: Form,
) -> Result<Option<usize>, SinkRefused> {
    let mut at = 0;
    while let Some(element) = element_at(symbol, at) {
        if is_omitted(symbol, element, form) {
            // The hash is followed by the `E`.
            return Ok(Some(element.to + 1));
        }
        if at > 0 {
            out.put("::")?;
        }
        put_element(symbol, element, out)?;
        at = element.to;
    }
    if symbol.is_at(b'E', at) {
        Ok(Some(at + 1))
    } else {
        Ok(None)
    }
}
