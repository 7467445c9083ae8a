// Made from crates/demangle_v0/src/value.rt by packaging/crate/erase.py: edit that file instead.
//! A v0 symbol that was read. It prints its first path.

use crate::demangle_sink::{SinkRefused, SizeLimitedFmtAdapter, TextSink};
use crate::demangle_symbol::cursor::Symbol;
use crate::demangle_symbol::form::Form;
use crate::demangle_v0::printer::print_path;
use crate::demangle_v0::stacks::SHORT_STACK;
use crate::demangle_v0_parser::frames::UNUSED_FRAME;
use crate::demangle_v0_parser::parse::Parser;
use crate::demangle_v0_tokens::source::Source;

/// A v0 symbol that was read: the bytes after its prefix, with the suffix.
#[derive(Clone, Copy)]
pub struct Demangle<'s> {
    inner: Symbol<'s>,
}

impl<'s> Demangle<'s> {
    /// Returns the symbol with these bytes, which are ASCII.
    pub(super) fn new(inner: Symbol<'s>) -> Demangle<'s> {
        Demangle { inner }
    }

    /// Prints the first path, with hashes or without them, and with its generic arguments or with
    /// `_` for them.
    ///
    /// Fails at the first piece that the limit or the sink rejects, and at the first reference for
    /// which more bytes may be read again than the adapter allows.
    pub fn write_to<S: TextSink>(
        &self,
        out: &mut SizeLimitedFmtAdapter<'_, S>,
        form: Form,
    ) -> Result<(), SinkRefused> {
        let source = Source {
            symbol: &self.inner,
            form,
        };
        let mut memory = [UNUSED_FRAME; SHORT_STACK];
        let mut parser = Parser::at_path(source, 0, &mut memory);
        print_path(&mut parser, out)
    }
}
