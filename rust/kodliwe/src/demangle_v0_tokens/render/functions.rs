// Made from crates/demangle_v0_tokens/src/render/functions.rt by packaging/crate/erase.py: edit that file instead.
//! Prints the qualifiers of function types: `unsafe`, and the ABI.

use crate::demangle_sink::{SinkRefused, SizeLimitedFmtAdapter, TextSink, put_each};
use crate::demangle_symbol::cursor::Part;
use crate::demangle_v0_tokens::source::Source;
use crate::demangle_v0_tokens::token::Abi;

impl Source<'_> {
    /// Prints a part of the symbol, and `-` after it.
    fn put_with_hyphen<S: TextSink>(
        &self,
        part: Part,
        out: &mut SizeLimitedFmtAdapter<'_, S>,
    ) -> Result<(), SinkRefused> {
        self.symbol.span(part).write_to(out)?;
        out.put("-")
    }

    /// Prints the name of an ABI, with `-` in place of each `_`. Each part of the name is one
    /// piece.
    fn put_abi_name<S: TextSink>(
        &self,
        name: Part,
        out: &mut SizeLimitedFmtAdapter<'_, S>,
    ) -> Result<(), SinkRefused> {
        let mut from = name.from;
        for at in name.from..name.to {
            if self.symbol.is_at(b'_', at) {
                self.put_with_hyphen(Part { from, to: at }, out)?;
                from = at + 1;
            }
        }
        let last = Part { from, to: name.to };
        self.symbol.span(last).write_to(out)
    }

    /// Prints `extern` and the name of an ABI in quotes.
    fn put_extern<S: TextSink>(
        &self,
        name: Part,
        out: &mut SizeLimitedFmtAdapter<'_, S>,
    ) -> Result<(), SinkRefused> {
        out.put("extern \"")?;
        self.put_abi_name(name, out)?;
        out.put("\" ")
    }

    /// Prints an ABI. It prints nothing for the ABI of Rust.
    fn put_abi<S: TextSink>(
        &self,
        abi: Abi,
        out: &mut SizeLimitedFmtAdapter<'_, S>,
    ) -> Result<(), SinkRefused> {
        match abi {
            Abi::Rust => Ok(()),
            Abi::C => put_each(&["extern \"", "C", "\" "], out),
            Abi::Named(name) => self.put_extern(name, out),
        }
    }

    /// Prints the qualifiers of a function type: `unsafe` if it is, and its ABI.
    #[inline(never)]
    pub(super) fn put_function_qualifiers<S: TextSink>(
        &self,
        is_unsafe: bool,
        abi: Abi,
        out: &mut SizeLimitedFmtAdapter<'_, S>,
    ) -> Result<(), SinkRefused> {
        if !is_unsafe {
            return self.put_abi(abi, out);
        }
        out.put("unsafe ")?;
        self.put_abi(abi, out)
    }
}
