// Made from crates/filter_tests/src/tests/bytes.rt by packaging/crate/erase.py: edit that file instead.
//! Tests of the output for any bytes: with chunks of all sizes, and with a reader or a writer that
//! fails.
use super::stream::{LINE, ROWS};
use crate::rustc_demangle::{
    BytesFilter, StreamFault, SymbolMemo, demangle_bytes, demangle_bytes_limited,
};
use crate::support::alloc::Global;
use crate::support::rt::HostRuntime;
use crate::support::vec::CollectIn;
use crate::support::vec::Vec;
use std::io;
use std::io::{BufRead, ErrorKind, Read, Write};

use crate::support::test::Fail;
use crate::test_doubles::streams::{ChunkReader, FailingWriter};

/// Asserts the output for bytes that are read in chunks of `size`.
pub(super) fn assert_filters(
    alloc: Global,
    text: &[u8],
    size: usize,
    include_hash: bool,
    wanted: &[u8],
) -> Result<(), Fail> {
    let parts: Vec<&[u8]> = text.chunks(size.max(1)).collect_in(alloc)?;
    let mut input = ChunkReader::new(parts.as_slice(), usize::MAX, ErrorKind::Other);
    let mut output = Vec::new(alloc);
    let result = demangle_bytes(alloc, &mut input, &mut output, include_hash);
    assert!(result.is_ok(), "of {text:?} by {size}");
    assert_eq!(output.as_slice(), wanted, "of {text:?} by {size}");
    Ok(())
}

#[test]
fn the_rows_of_the_stream_in_chunks_of_each_size() -> Result<(), Fail> {
    let rt = HostRuntime;
    for (text, wanted) in ROWS {
        for size in 1..=text.len().saturating_add(1) {
            assert_filters(rt.alloc(), text, size, true, wanted)?;
            assert_filters(rt.alloc(), text, size, false, wanted)?;
        }
    }
    Ok(())
}

/// Symbols that are not printed in one pass, since a part of them is slow to print.
const SLOW: [(&[u8], &[u8]); 4] = [
    (
        b"_RINvC1a1bCu9bcher_kvaC3fooE",
        b"a::b::<b\xC3\xBCcher, foo>",
    ),
    (b"_RINvC1a1bKRe616263_hhE", b"a::b::<\"abc\", u8, u8>"),
    (
        b"_RIC1aKj1_Kj1_Kj1_Kj1_Kj1_Kj1_Kj1_Kj1_hE",
        b"a::<1usize, 1usize, 1usize, 1usize, 1usize, 1usize, 1usize, 1usize, u8>",
    ),
    (
        b"_RIC1aFEuFEuFEuFEuFEuFEuFEuFEuhE",
        b"a::<fn(), fn(), fn(), fn(), fn(), fn(), fn(), fn(), u8>",
    ),
];

#[test]
fn symbols_that_are_slow_to_print_are_whole() -> Result<(), Fail> {
    let rt = HostRuntime;
    for &(text, wanted) in &SLOW {
        assert_filters(rt.alloc(), text, text.len(), true, wanted)?;
    }
    Ok(())
}

#[test]
fn bytes_between_symbols_are_kept() -> Result<(), Fail> {
    let rt = HostRuntime;
    let cases: [(&[u8], &[u8]); 10] = [
        (b"caf\xE9 _ZN3fooE\xE9\n", b"caf\xE9 foo\xE9\n"),
        (b"\xFF_ZN3fooE\xFF\n\xFE", b"\xFFfoo\xFF\n\xFE"),
        (b"\0_ZN3fooE\0_RNvC1a1b\0", b"\0foo\0a::b\0"),
        (b"_ZN3fooE\xC3", b"foo\xC3"),
        (b"_ZN3f\xC3\xA9E", b"_ZN3f\xC3\xA9E"),
        (b"\xC3_R\xA9", b"\xC3_R\xA9"),
        (b"_", b"_"),
        (b"a _Z", b"a _Z"),
        (b"__Z_ZN", b"__Z_ZN"),
        (b"x _ZN3fooE", b"x foo"),
    ];
    for (text, wanted) in cases {
        for size in 1..=text.len() {
            assert_filters(rt.alloc(), text, size, true, wanted)?;
        }
    }
    Ok(())
}

#[test]
fn a_hash_is_left_out_of_bytes() -> Result<(), Fail> {
    let rt = HostRuntime;
    let text = b"\xE9<_ZN3foo17h05af221e174051e9E>\n".as_slice();
    for size in [1, 2, 3, 64] {
        assert_filters(
            rt.alloc(),
            text,
            size,
            true,
            b"\xE9<foo::h05af221e174051e9>\n",
        )?;
        assert_filters(rt.alloc(), text, size, false, b"\xE9<foo>\n")?;
    }
    Ok(())
}

#[test]
fn each_symbol_is_cut_at_the_limit() -> Result<(), Fail> {
    let rt = HostRuntime;
    let alloc = rt.alloc();
    let mut input = b"_ZN3foo3barE _ZN1aE.llvm.1@x\n".as_slice();
    let mut output = Vec::new(alloc);
    let result = demangle_bytes_limited(alloc, &mut input, &mut output, true, 3);
    assert!(result.is_ok());
    assert_eq!(
        output.as_slice(),
        b"foo{size limit reached} a@x\n".as_slice()
    );
    Ok(())
}

#[test]
fn bytes_before_a_read_error() -> Result<(), Fail> {
    let rt = HostRuntime;
    let alloc = rt.alloc();
    let parts: [&[u8]; 4] = [b"x _ZN", b"3fooE\n_ZN3", b"barE", b"\n_"];
    // The fourth part is returned by two calls of `fill_buf`. The run that it ends is written
    // before any of it is consumed.
    let written: [&[u8]; 7] = [
        b"",
        b"x ",
        b"x foo\n",
        b"x foo\n",
        b"x foo\nbar",
        b"x foo\nbar\n",
        b"x foo\nbar\n_",
    ];
    for (fills, wanted) in written.iter().enumerate() {
        let mut input = ChunkReader::new(&parts, fills, ErrorKind::Other);
        let mut output = Vec::new(alloc);
        let result = demangle_bytes(alloc, &mut input, &mut output, true);
        if fills < 6 {
            assert!(
                matches!(&result, Err(StreamFault::Read(error)) if error.kind() == ErrorKind::Other),
                "at {fills}"
            );
        } else {
            assert!(result.is_ok());
        }
        assert_eq!(output.as_slice(), *wanted, "at {fills}");
        let mut input = ChunkReader::new(&parts, fills, ErrorKind::OutOfMemory);
        let mut output = Vec::new(alloc);
        let result = demangle_bytes(alloc, &mut input, &mut output, true);
        if fills < 6 {
            assert!(matches!(&result, Err(StreamFault::Memory)), "at {fills}");
        }
        assert_eq!(output.as_slice(), *wanted, "at {fills}");
    }
    Ok(())
}

/// Returns a text in chunks of two bytes, and is interrupted before each.
struct InterruptedReader<'a> {
    text: &'a [u8],
    taken: usize,
    is_ready: bool,
}

impl Read for InterruptedReader<'_> {
    fn read(&mut self, buf: &mut [u8]) -> io::Result<usize> {
        let part = self.fill_buf()?;
        let count = part.len().min(buf.len());
        buf[..count].copy_from_slice(&part[..count]);
        self.consume(count);
        Ok(count)
    }
}

impl BufRead for InterruptedReader<'_> {
    fn fill_buf(&mut self) -> io::Result<&[u8]> {
        self.is_ready = !self.is_ready;
        if self.is_ready {
            return Err(io::Error::from(ErrorKind::Interrupted));
        }
        match self.text.get(self.taken..self.taken.saturating_add(2)) {
            None => Ok(self.text.get(self.taken..).unwrap_or(b"")),
            Some(part) => Ok(part),
        }
    }

    fn consume(&mut self, amount: usize) {
        self.taken = self.taken.saturating_add(amount);
    }
}

#[test]
fn a_step_is_retried_after_an_interruption() -> Result<(), Fail> {
    let rt = HostRuntime;
    let alloc = rt.alloc();
    let mut input = InterruptedReader {
        text: b"a _ZN3fooE b\n_RC1a_ZN1bE _ZN3barE",
        taken: 0,
        is_ready: false,
    };
    let mut output = Vec::new(alloc);
    let mut filter = BytesFilter::new(alloc);
    let mut memo = SymbolMemo::new(alloc, true, 1_000_000);
    for _ in 0..1_000u32 {
        match filter.step(&mut input, &mut output, &mut memo) {
            Ok(false) => break,
            Ok(true) => {}
            Err(StreamFault::Read(error)) if error.kind() == ErrorKind::Interrupted => {}
            Err(fault) => return Err(fault.into_io().into()),
        }
    }
    assert_eq!(output.as_slice(), b"a foo b\n_RC1a_ZN1bE bar".as_slice());
    Ok(())
}

/// The writes for `LINE` and a line feed. Each symbol is one, whether it is found first or again.
const WRITES: [&[u8]; 6] = [
    b"foo.llvm",
    b" moocow ",
    b"<mio[1888792e1a78739]::sys::unix::selector::epoll::Selector>::select",
    b" ",
    b"foo.llvm",
    b"\n",
];

#[test]
fn the_writer_of_bytes_fails_at_each_write() -> Result<(), Fail> {
    let rt = HostRuntime;
    let alloc = rt.alloc();
    let mut text = Vec::new(alloc);
    let mut wanted_writes: Vec<&[u8]> = Vec::new(alloc);
    for _ in 0..2 {
        text.extend_from_slice(LINE)?;
        text.push(b'\n')?;
        wanted_writes.extend_from_slice(&WRITES)?;
    }
    for writes in 0..=wanted_writes.len() {
        let mut input = text.as_slice();
        let mut output = FailingWriter::new(alloc, b"old", writes, true)?;
        let result = demangle_bytes(alloc, &mut input, &mut output, true);
        if writes < wanted_writes.len() {
            assert!(
                matches!(&result, Err(StreamFault::Write(error)) if error.kind() == ErrorKind::BrokenPipe),
                "at {writes}"
            );
        } else {
            assert!(result.is_ok());
        }
        let mut wanted = Vec::from_slice(alloc, b"old")?;
        for write in wanted_writes.iter().take(writes) {
            wanted.extend_from_slice(write)?;
        }
        assert_eq!(output.written(), wanted.as_slice(), "at {writes}");
    }
    Ok(())
}

/// Takes one byte in each write.
struct ByteWriter {
    written: Vec<u8>,
}

impl Write for ByteWriter {
    fn write(&mut self, buf: &[u8]) -> io::Result<usize> {
        match buf.first() {
            Some(byte) => {
                self.written.push(*byte)?;
                Ok(1)
            }
            None => Ok(0),
        }
    }

    fn flush(&mut self) -> io::Result<()> {
        Ok(())
    }
}

#[test]
fn short_writes_lose_nothing() -> Result<(), Fail> {
    let rt = HostRuntime;
    let alloc = rt.alloc();
    let mut input = b"caf\xE9 _ZN1a1bE.x\n".as_slice();
    let mut output = ByteWriter {
        written: Vec::new(alloc),
    };
    let result = demangle_bytes(alloc, &mut input, &mut output, true);
    assert!(result.is_ok());
    assert_eq!(output.written.as_slice(), b"caf\xE9 a::b.x\n".as_slice());
    Ok(())
}
