// Made from crates/demangle_v0_tokens/src/render/names.rt by packaging/crate/erase.py: edit that file instead.
//! Prints names, with the texts before and after them.

use crate::demangle_sink::{SinkRefused, SizeLimitedFmtAdapter, TextSink, put_char};
use crate::demangle_symbol::cursor::Ident;
use crate::demangle_symbol::form::Form;
use crate::demangle_v0_tokens::render::numbers;
use crate::demangle_v0_tokens::source::Source;

/// A name in a namespace.
#[derive(Clone, Copy)]
pub(super) struct NamespacedName {
    /// The letter of the namespace, which is special if it is `A` to `Z`.
    pub(super) namespace: u8,
    /// The disambiguator.
    pub(super) number: u64,
    pub(super) ident: Ident,
}

/// Prints a disambiguator in brackets, if it is not 0. The alternate form omits it.
#[inline(never)]
fn put_disambiguator<S: TextSink>(
    number: u64,
    form: Form,
    out: &mut SizeLimitedFmtAdapter<'_, S>,
) -> Result<(), SinkRefused> {
    if !form.include_hash {
        return Ok(());
    }
    if number == 0 {
        return Ok(());
    }
    out.put("[")?;
    numbers::put_hexadecimal(number, out)?;
    out.put("]")
}

/// Prints the kind of a special namespace: `closure`, `shim`, or the letter of any other.
fn put_special_kind<S: TextSink>(
    namespace: u8,
    out: &mut SizeLimitedFmtAdapter<'_, S>,
) -> Result<(), SinkRefused> {
    match namespace {
        b'C' => out.put("closure"),
        b'S' => out.put("shim"),
        _ => put_char(char::from(namespace), out),
    }
}

/// Prints the disambiguator of a special name, in decimal digits.
fn put_index<S: TextSink>(
    number: u64,
    out: &mut SizeLimitedFmtAdapter<'_, S>,
) -> Result<(), SinkRefused> {
    numbers::put_decimal(number as u128, out)
}

/// Prints the end of a special name: `#`, its disambiguator and `}`.
fn put_special_suffix<S: TextSink>(
    number: u64,
    out: &mut SizeLimitedFmtAdapter<'_, S>,
) -> Result<(), SinkRefused> {
    out.put("#")?;
    put_index(number, out)?;
    out.put("}")
}

impl Source<'_> {
    /// Prints the name of a crate, and its disambiguator after it.
    #[cfg_attr(not(debug_assertions), inline(always))]
    pub(super) fn put_crate_name<S: TextSink>(
        &self,
        name: &Ident,
        number: u64,
        out: &mut SizeLimitedFmtAdapter<'_, S>,
    ) -> Result<(), SinkRefused> {
        name.write_to(self.symbol, out)?;
        put_disambiguator(number, self.form, out)
    }

    /// Returns `true` if both parts of a name are empty.
    #[cfg_attr(not(debug_assertions), inline(always))]
    fn is_empty_name(&self, name: &Ident) -> bool {
        name.ascii.to <= name.ascii.from && name.punycode.to <= name.punycode.from
    }

    /// Prints a text, and a name after it. It prints nothing if the name is empty.
    #[cfg_attr(not(debug_assertions), inline(always))]
    fn put_prefixed_name<S: TextSink>(
        &self,
        before: &str,
        name: &Ident,
        out: &mut SizeLimitedFmtAdapter<'_, S>,
    ) -> Result<(), SinkRefused> {
        // A name may be empty, as a closure's is. Then the text before it is omitted too.
        if self.is_empty_name(name) {
            return Ok(());
        }
        out.put(before)?;
        name.write_to(self.symbol, out)
    }

    /// Prints a name in a special namespace, and its disambiguator.
    // It takes the name by value, so that its caller can keep the names that it reads in registers.
    #[inline(never)]
    fn put_special_name<S: TextSink>(
        &self,
        name: NamespacedName,
        out: &mut SizeLimitedFmtAdapter<'_, S>,
    ) -> Result<(), SinkRefused> {
        out.put("::{")?;
        put_special_kind(name.namespace, out)?;
        self.put_prefixed_name(":", &name.ident, out)?;
        put_special_suffix(name.number, out)
    }

    /// Prints a name in a namespace, with `::` before it. An empty name prints nothing, unless the
    /// namespace is special.
    #[cfg_attr(not(debug_assertions), inline(always))]
    pub(super) fn put_nested_name<S: TextSink>(
        &self,
        name: NamespacedName,
        out: &mut SizeLimitedFmtAdapter<'_, S>,
    ) -> Result<(), SinkRefused> {
        match name.namespace {
            b'A'..=b'Z' => self.put_special_name(name, out),
            _ => self.put_prefixed_name("::", &name.ident, out),
        }
    }

    /// Prints the name of an associated type that a trait's arguments bind, and ` = ` after it.
    #[inline(never)]
    pub(super) fn put_binding<S: TextSink>(
        &self,
        name: &Ident,
        out: &mut SizeLimitedFmtAdapter<'_, S>,
    ) -> Result<(), SinkRefused> {
        name.write_to(self.symbol, out)?;
        out.put(" = ")
    }
}
