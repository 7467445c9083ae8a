// Made from crates/demangle_value/src/display.rt by packaging/crate/erase.py: edit that file instead.
//! Formats a demangled symbol.

use crate::demangle_sink::FmtSink;
use crate::demangle_value::coalescing::write_coalesced;
use crate::demangle_value::value::Demangle;
use core::fmt;

/// Prints with the hash, and with `{:#}` without it. Width, fill, sign and precision have no
/// effect.
///
/// The formatter gets several pieces of the text at once. Fails if it rejects a part. It then got a
/// prefix of the text.
impl fmt::Display for Demangle<'_> {
    fn fmt(&self, f: &mut fmt::Formatter<'_>) -> fmt::Result {
        let include_hash = !f.alternate();
        let mut sink = FmtSink::new(f);
        match write_coalesced(self, &mut sink, include_hash) {
            Ok(()) => Ok(()),
            Err(_) => Err(fmt::Error),
        }
    }
}

/// Prints as `Display` does, whatever the options.
impl fmt::Debug for Demangle<'_> {
    fn fmt(&self, f: &mut fmt::Formatter<'_>) -> fmt::Result {
        fmt::Display::fmt(self, f)
    }
}
