// Made from crates/demangle_symbol/src/punycode/printing.rt by packaging/crate/erase.py: edit that file instead.
//! Prints names, decoded if they have a Punycode part.

use crate::demangle_sink::{SinkRefused, SizeLimitedFmtAdapter, TextSink, put_chars};
use crate::demangle_symbol::cursor::{Ident, Part, Symbol};
use crate::demangle_symbol::punycode::decode;

impl Ident {
    /// Puts the ASCII part and `-`. Puts nothing if the ASCII part is empty.
    fn write_ascii<S: TextSink>(
        &self,
        symbol: &Symbol<'_>,
        out: &mut SizeLimitedFmtAdapter<'_, S>,
    ) -> Result<(), SinkRefused> {
        if self.ascii.to <= self.ascii.from {
            return Ok(());
        }
        symbol.span(self.ascii).write_to(out)?;
        out.put("-")
    }

    /// Puts both parts undecoded, between `punycode{` and `}`.
    fn write_undecoded<S: TextSink>(
        &self,
        symbol: &Symbol<'_>,
        out: &mut SizeLimitedFmtAdapter<'_, S>,
    ) -> Result<(), SinkRefused> {
        out.put("punycode{")?;
        self.write_ascii(symbol, out)?;
        symbol.span(self.punycode).write_to(out)?;
        out.put("}")
    }

    /// Puts the decoded characters of a name with these parts. If they cannot be decoded, puts both
    /// parts undecoded, between `punycode{` and `}`.
    // Most names have no Punycode part. A separate function keeps the code for them short. It takes
    // the parts by value, so that they can stay in registers.
    #[inline(never)]
    fn write_decoded<S: TextSink>(
        ascii: Part,
        punycode: Part,
        symbol: &Symbol<'_>,
        out: &mut SizeLimitedFmtAdapter<'_, S>,
    ) -> Result<(), SinkRefused> {
        let name = Ident { ascii, punycode };
        match decode(symbol, name) {
            Some(characters) => put_chars(&characters, out),
            None => name.write_undecoded(symbol, out),
        }
    }

    /// Puts a name: the ASCII part if there is no Punycode part, and otherwise the decoded
    /// characters. If they cannot be decoded, puts both parts between `punycode{` and `}`.
    ///
    /// # Errors
    ///
    /// Returns `SinkRefused` if the sink or the size limit rejects a piece. No later piece is sent.
    #[cfg_attr(not(debug_assertions), inline(always))]
    pub fn write_to<S: TextSink>(
        &self,
        symbol: &Symbol<'_>,
        out: &mut SizeLimitedFmtAdapter<'_, S>,
    ) -> Result<(), SinkRefused> {
        if self.punycode.to <= self.punycode.from {
            return symbol.span(self.ascii).write_to(out);
        }
        Ident::write_decoded(self.ascii, self.punycode, symbol, out)
    }
}
