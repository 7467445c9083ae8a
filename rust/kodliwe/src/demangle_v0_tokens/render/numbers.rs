// Made from crates/demangle_v0_tokens/src/render/numbers.rt by packaging/crate/erase.py: edit that file instead.
//! Prints numbers, and the types of numeric constants.

use crate::demangle_sink::{SinkRefused, SizeLimitedFmtAdapter, TextSink};
use crate::demangle_symbol::cursor::Part;
use crate::demangle_v0_tokens::fixed_texts::{basic_type_text, text};
use crate::demangle_v0_tokens::source::Source;
use crate::support::itoa::Buffer;
use core::str;

// The two digits of each byte.
#[rustfmt::skip]
static DIGIT_PAIRS_16: [u8; 512] = *b"\
    000102030405060708090a0b0c0d0e0f\
    101112131415161718191a1b1c1d1e1f\
    202122232425262728292a2b2c2d2e2f\
    303132333435363738393a3b3c3d3e3f\
    404142434445464748494a4b4c4d4e4f\
    505152535455565758595a5b5c5d5e5f\
    606162636465666768696a6b6c6d6e6f\
    707172737475767778797a7b7c7d7e7f\
    808182838485868788898a8b8c8d8e8f\
    909192939495969798999a9b9c9d9e9f\
    a0a1a2a3a4a5a6a7a8a9aaabacadaeaf\
    b0b1b2b3b4b5b6b7b8b9babbbcbdbebf\
    c0c1c2c3c4c5c6c7c8c9cacbcccdcecf\
    d0d1d2d3d4d5d6d7d8d9dadbdcdddedf\
    e0e1e2e3e4e5e6e7e8e9eaebecedeeef\
    f0f1f2f3f4f5f6f7f8f9fafbfcfdfeff\
";

/// Writes all 16 hexadecimal digits of a number, and returns how many leading zeros to omit.
#[cfg_attr(not(debug_assertions), inline(always))]
fn write_hexadecimal(number: u64, text: &mut [u8; 16]) -> usize {
    let mut pairs = 8;
    let mut rest = number;
    while pairs > 0 {
        pairs -= 1;
        let pair = (rest % 256) as usize * 2;
        text[pairs * 2 + 1] = DIGIT_PAIRS_16[pair + 1];
        text[pairs * 2] = DIGIT_PAIRS_16[pair];
        rest /= 256;
    }
    // 0 has one digit, so its lowest bit is set for the count.
    ((number | 1).leading_zeros() / 4) as usize
}

/// Prints a number in hexadecimal digits, as one piece.
#[cfg_attr(not(debug_assertions), inline(always))]
pub(super) fn put_hexadecimal<S: TextSink>(
    number: u64,
    out: &mut SizeLimitedFmtAdapter<'_, S>,
) -> Result<(), SinkRefused> {
    let mut text = [0; 16];
    let start = write_hexadecimal(number, &mut text);
    // SAFETY: digits are ASCII.
    out.put(unsafe { str::from_utf8_unchecked(&text[start..]) })
}

/// Prints a number in decimal digits, as one piece.
pub(super) fn put_decimal<S: TextSink>(
    number: u128,
    out: &mut SizeLimitedFmtAdapter<'_, S>,
) -> Result<(), SinkRefused> {
    let mut buffer = Buffer::new();
    out.put(buffer.format(number))
}

impl Source<'_> {
    /// Prints the nibbles of a number that has more than 128 bits.
    fn put_nibbles<S: TextSink>(
        &self,
        nibbles: Part,
        out: &mut SizeLimitedFmtAdapter<'_, S>,
    ) -> Result<(), SinkRefused> {
        // All the nibbles are printed as they are spelled, leading zeros too.
        out.put("0x")?;
        self.symbol.span(nibbles).write_to(out)
    }

    /// Prints a number in decimal digits, or its nibbles if it has no value.
    fn put_number<S: TextSink>(
        &self,
        value: Option<u128>,
        nibbles: Part,
        out: &mut SizeLimitedFmtAdapter<'_, S>,
    ) -> Result<(), SinkRefused> {
        match value {
            Some(number) => put_decimal(number, out),
            None => self.put_nibbles(nibbles, out),
        }
    }

    /// Prints the name of a basic type. The alternate form omits it.
    fn put_type_name<S: TextSink>(
        &self,
        tag: u8,
        out: &mut SizeLimitedFmtAdapter<'_, S>,
    ) -> Result<(), SinkRefused> {
        if !self.form.include_hash {
            return Ok(());
        }
        match basic_type_text(tag) {
            Some(fixed_text) => out.put(text(fixed_text)),
            None => Ok(()),
        }
    }

    /// Prints a numeric constant, and the name of its type after it.
    #[inline(never)]
    pub(super) fn put_number_constant<S: TextSink>(
        &self,
        value: Option<u128>,
        nibbles: Part,
        tag: u8,
        out: &mut SizeLimitedFmtAdapter<'_, S>,
    ) -> Result<(), SinkRefused> {
        self.put_number(value, nibbles, out)?;
        self.put_type_name(tag, out)
    }
}
