// Made from crates/filter_tests/src/tests/stream.rt by packaging/crate/erase.py: edit that file instead.
//! Tests of the stream's output for lines, and with a reader or a writer that fails.
use crate::rustc_demangle::{StreamFault, demangle_bytes, demangle_stream, demangle_stream_named};
use crate::support::alloc::Global;
use crate::support::rt::HostRuntime;
use crate::support::vec::Vec;
use std::io;
use std::io::{BufRead, ErrorKind, Read};

use crate::support::test::Fail;
use crate::test_doubles::streams::{ChunkReader, FailingWriter, RecordingWriter};

/// Texts, and the stream's output for them, with the hash and without it.
pub(super) const ROWS: [(&[u8], &[u8]); 17] = [
    (b"", b""),
    (b"\n", b"\n"),
    (b"_ZN3fooE.llvm.9D1C9369@@16", b"foo@@16"),
    (b"_R_ZN3fooE", b"_R_ZN3fooE"),
    (b"_ZNfooE.llvm.AB", b"_ZNfooE.llvm.AB"),
    (
        b"_ZN3fooE.llvm moocow _ZN3fooE.llvm",
        b"foo.llvm moocow foo.llvm",
    ),
    (b"\xC3\xA9_ZN3fooE\xC3\xA9", b"\xC3\xA9foo\xC3\xA9"),
    (b"_ZN3fooEx", b"_ZN3fooEx"),
    (b"_ZN3fooE\r\n", b"foo\r\n"),
    (b"x _RCx _ZN3fooE", b"x _RCx foo"),
    (b"_Z _ZN_ _R", b"_Z _ZN_ _R"),
    (b"a\n\nb _ZN1aE\nc", b"a\n\nb a\nc"),
    (b"_ZN3fooE,_RNvC1a1b", b"foo,a::b"),
    (b"_RMC0FG_RL0_hEu\n", b"<for<'a> fn(&'a u8)>\n"),
    (b"_R_RC1a _RC1a_RC1b", b"_R_RC1a _RC1a_RC1b"),
    (b"x _ZN8$RF$testE y", b"x &test y"),
    (b"_ZN3fooE.a~ _ZN3fooE.llvm.AG", b"foo.a~ foo.llvm.AG"),
];

/// Texts, and their output by the calls over lines and texts, which replace each run.
pub(super) const EACH_RUN: [(&[u8], &[u8]); 6] = [
    (b"__ZN3fooE", b"_foo"),
    (b"a_ZN3fooE", b"afoo"),
    (b"RC1a __RC1a _RC1aC1b", b"RC1a _a a"),
    (b"SW_RC0.zip", b"SW.zip"),
    (b"CLK_RC1M", b"CLKM"),
    (b" __RNvC3foo3bar", b" _foo::bar"),
];

/// Asserts the stream's output for a text, with the hash or without it.
fn assert_writes(
    alloc: Global,
    text: &[u8],
    include_hash: bool,
    wanted: &[u8],
) -> Result<(), Fail> {
    let mut input = text;
    let mut output = Vec::new(alloc);
    demangle_stream(alloc, &mut input, &mut output, include_hash)?;
    assert_eq!(output.as_slice(), wanted, "of {text:?}");
    assert!(input.is_empty(), "of {text:?}");
    Ok(())
}

#[test]
fn symbols_are_replaced_in_lines() -> Result<(), Fail> {
    let rt = HostRuntime;
    for (text, wanted) in ROWS.iter().chain(EACH_RUN.iter()) {
        assert_writes(rt.alloc(), text, true, wanted)?;
        assert_writes(rt.alloc(), text, false, wanted)?;
    }
    Ok(())
}

#[test]
fn a_run_ends_at_each_byte_that_it_may_not_have() -> Result<(), Fail> {
    let rt = HostRuntime;
    let alloc = rt.alloc();
    for byte in 0..128u8 {
        let continues_on = byte.is_ascii_alphanumeric() || byte == b'$' || byte == b'_';
        let mut text = Vec::from_slice(alloc, b"_ZN3fooE")?;
        text.push(byte)?;
        let mut wanted = Vec::new(alloc);
        if continues_on {
            wanted.extend_from_slice(b"_ZN3fooE")?;
        } else {
            wanted.extend_from_slice(b"foo")?;
        }
        wanted.push(byte)?;
        assert_writes(alloc, text.as_slice(), true, wanted.as_slice())?;
    }
    Ok(())
}

#[test]
fn the_stream_leaves_out_a_hash() -> Result<(), Fail> {
    let rt = HostRuntime;
    let text = b"<_ZN3foo17h05af221e174051e9E>\n".as_slice();
    assert_writes(rt.alloc(), text, true, b"<foo::h05af221e174051e9>\n")?;
    assert_writes(rt.alloc(), text, false, b"<foo>\n")
}

#[test]
fn the_reader_fails() -> Result<(), Fail> {
    let rt = HostRuntime;
    let alloc = rt.alloc();
    let cases: [(&[u8], &[u8]); 3] = [
        (b"x _ZN3fooE\n", b"x foo\n"),
        (b"x _ZN3fo", b""),
        (b"\xFF", b""),
    ];
    for (text, wanted) in cases {
        let parts = [text];
        let mut input = ChunkReader::new(&parts, 1, ErrorKind::Other);
        let mut output = Vec::new(alloc);
        let result = demangle_stream_named(alloc, &mut input, &mut output, true);
        assert!(
            matches!(&result, Err(StreamFault::Read(error)) if error.kind() == ErrorKind::Other)
        );
        assert_eq!(output.as_slice(), wanted, "after {text:?}");
        let mut input = ChunkReader::new(&parts, 1, ErrorKind::OutOfMemory);
        let mut output = Vec::new(alloc);
        let result = demangle_stream_named(alloc, &mut input, &mut output, true);
        assert!(matches!(&result, Err(StreamFault::Memory)));
        assert_eq!(output.as_slice(), wanted, "after {text:?}");
    }
    Ok(())
}

#[test]
fn the_reader_fails_at_each_chunk() -> Result<(), Fail> {
    let rt = HostRuntime;
    let alloc = rt.alloc();
    let parts: [&[u8]; 4] = [b"x _ZN", b"3fooE\n_ZN3", b"barE", b"\n"];
    let written: [&[u8]; 6] = [
        b"",
        b"",
        b"x foo\n",
        b"x foo\n",
        b"x foo\nbar\n",
        b"x foo\nbar\n",
    ];
    for (fills, wanted) in written.iter().enumerate() {
        let mut input = ChunkReader::new(&parts, fills, ErrorKind::Other);
        let mut output = Vec::new(alloc);
        let result = demangle_stream(alloc, &mut input, &mut output, true);
        let kind = result.map_err(|error| error.kind());
        if fills < 5 {
            assert_eq!(kind, Err(ErrorKind::Other), "at {fills}");
        } else {
            assert_eq!(kind, Ok(()));
        }
        assert_eq!(output.as_slice(), *wanted, "at {fills}");
    }
    Ok(())
}

#[test]
fn a_line_is_not_utf8() -> Result<(), Fail> {
    let rt = HostRuntime;
    let alloc = rt.alloc();
    let cases: [(&[u8], &[u8]); 3] = [
        (b"x _RCx _ZN3fooE\n\xFF", b"x _RCx foo\n"),
        (b"\xFF", b""),
        (b"_ZN3fooE \xFF\n_ZN3fooE", b""),
    ];
    for (text, wanted) in cases {
        let mut input = text;
        let mut output = Vec::new(alloc);
        let result = demangle_stream_named(alloc, &mut input, &mut output, true);
        assert!(matches!(&result, Err(StreamFault::NotUtf8)), "of {text:?}");
        assert_eq!(output.as_slice(), wanted, "of {text:?}");
    }
    Ok(())
}

/// A line with symbols of both schemes.
pub(super) const LINE: &[u8] = b"_ZN3fooE.llvm moocow \
    _RNvMNtNtNtNtCs8a2262Dv4r_3mio3sys4unix8selector5epollNtB2_8Selector6select _ZN3fooE.llvm";

/// The writes for `LINE` in three parts. Only the plain form has the disambiguator. The line feed
/// is the last write.
const HEAD: [&[u8]; 5] = [b"foo", b".llvm", b" moocow ", b"<", b"mio"];

const DISAMBIGUATOR: [&[u8]; 3] = [b"[", b"1888792e1a78739", b"]"];

const TAIL: [&[u8]; 17] = [
    b"::",
    b"sys",
    b"::",
    b"unix",
    b"::",
    b"selector",
    b"::",
    b"epoll",
    b"::",
    b"Selector",
    b">",
    b"::",
    b"select",
    b" ",
    b"foo",
    b".llvm",
    b"\n",
];

#[test]
fn lines_have_symbols_of_both_schemes() -> Result<(), Fail> {
    let rt = HostRuntime;
    let alt = b"foo.llvm moocow <mio::sys::unix::selector::epoll::Selector>::select foo.llvm";
    assert_writes(rt.alloc(), LINE, false, alt.as_slice())?;
    let plain =
        b"foo.llvm moocow <mio[1888792e1a78739]::sys::unix::selector::epoll::Selector>::select foo.llvm";
    assert_writes(rt.alloc(), LINE, true, plain.as_slice())
}

/// Asserts the contents of a writer that fails at a write of each number, for `LINE` twice. It must
/// contain exactly the writes before the failed one.
fn assert_held(alloc: Global, include_hash: bool) -> Result<(), Fail> {
    let mut text = Vec::new(alloc);
    let mut wanted_writes: Vec<&[u8]> = Vec::new(alloc);
    for _ in 0..2 {
        text.extend_from_slice(LINE)?;
        text.push(b'\n')?;
        wanted_writes.extend_from_slice(&HEAD)?;
        if include_hash {
            wanted_writes.extend_from_slice(&DISAMBIGUATOR)?;
        }
        wanted_writes.extend_from_slice(&TAIL)?;
    }
    for writes in 0..=wanted_writes.len() {
        let mut input = text.as_slice();
        let mut output = FailingWriter::new(alloc, b"old", writes, true)?;
        let result = demangle_stream(alloc, &mut input, &mut output, include_hash);
        let kind = result.map_err(|error| error.kind());
        if writes < wanted_writes.len() {
            assert_eq!(kind, Err(ErrorKind::BrokenPipe), "at {writes}");
        } else {
            assert_eq!(kind, Ok(()));
        }
        let mut wanted = Vec::from_slice(alloc, b"old")?;
        for write in wanted_writes.iter().take(writes) {
            wanted.extend_from_slice(write)?;
        }
        assert_eq!(output.written(), wanted.as_slice(), "at {writes}");
    }
    Ok(())
}

#[test]
fn the_writer_fails_at_each_write() -> Result<(), Fail> {
    let rt = HostRuntime;
    assert_held(rt.alloc(), true)?;
    assert_held(rt.alloc(), false)
}

#[test]
fn each_text_and_piece_is_a_write() -> Result<(), Fail> {
    let rt = HostRuntime;
    let alloc = rt.alloc();
    let cases: [(&[u8], &[&[u8]]); 6] = [
        (b"x _RCx _ZN3fooE", &[b"x ", b"_RCx", b" ", b"foo"]),
        (b"_ZN1a1bE.x\n\n", &[b"a", b"::", b"b", b".x", b"\n", b"\n"]),
        (b"_RCs_1a.x", &[b"a", b"[", b"1", b"]", b".x"]),
        (b"_ZNE _ZN0E", &[b" "]),
        (b"_RCx_a_longer_run y", &[b"_RCx_a_longer_run", b" y"]),
        (
            b"y _ZN3fo\nx _R_a_longer_run_that_is_no_symbol",
            &[
                b"y ",
                b"_ZN3fo",
                b"\n",
                b"x ",
                b"_R_a_longer_run_that_is_no_symbol",
            ],
        ),
    ];
    for (text, wanted) in cases {
        let mut input = text;
        let mut output = RecordingWriter::new(alloc);
        demangle_stream(alloc, &mut input, &mut output, true)?;
        assert_eq!(output.writes().len(), wanted.len(), "of {text:?}");
        for (write, want) in output.writes().iter().zip(wanted.iter()) {
            assert_eq!(write.as_slice(), *want, "of {text:?}");
        }
    }
    Ok(())
}

#[test]
fn each_text_of_any_bytes_is_a_write() -> Result<(), Fail> {
    let rt = HostRuntime;
    let alloc = rt.alloc();
    let cases: [(&[u8], &[&[u8]]); 3] = [
        (b"x _RCx _ZN3fooE", &[b"x ", b"_RCx", b" ", b"foo"]),
        (b"_RCx_a_longer_run y", &[b"_RCx_a_longer_run", b" y"]),
        (
            b"y _ZN3fo\nx _R_a_longer_run_that_is_no_symbol",
            &[
                b"y ",
                b"_ZN3fo",
                b"\nx ",
                b"_R_a_longer_run_that_is_no_symbol",
            ],
        ),
    ];
    for (text, wanted) in cases {
        let mut input = text;
        let mut output = RecordingWriter::new(alloc);
        assert!(demangle_bytes(alloc, &mut input, &mut output, true).is_ok());
        assert_eq!(output.writes().len(), wanted.len(), "of {text:?}");
        for (write, want) in output.writes().iter().zip(wanted.iter()) {
            assert_eq!(write.as_slice(), *want, "of {text:?}");
        }
    }
    Ok(())
}

/// Returns one part a given number of times.
struct RepeatingReader<'a> {
    part: &'a [u8],
    left: u32,
}

impl Read for RepeatingReader<'_> {
    fn read(&mut self, buf: &mut [u8]) -> io::Result<usize> {
        let part = self.fill_buf()?;
        let count = part.len().min(buf.len());
        buf[..count].copy_from_slice(&part[..count]);
        self.consume(count);
        Ok(count)
    }
}

impl BufRead for RepeatingReader<'_> {
    fn fill_buf(&mut self) -> io::Result<&[u8]> {
        Ok(if self.left == 0 { b"" } else { self.part })
    }

    fn consume(&mut self, amount: usize) {
        if amount != 0 {
            self.left = self.left.saturating_sub(1);
        }
    }
}

#[test]
fn a_line_may_come_in_many_parts() -> Result<(), Fail> {
    let rt = HostRuntime;
    let alloc = rt.alloc();
    let mut input = RepeatingReader {
        part: b"x",
        left: 200_000,
    };
    let mut output = Vec::new(alloc);
    demangle_stream(alloc, &mut input, &mut output, true)?;
    assert_eq!(output.len(), 200_000usize);
    Ok(())
}

#[test]
fn bytes_may_come_in_many_parts() -> Result<(), Fail> {
    let rt = HostRuntime;
    let alloc = rt.alloc();
    let mut input = RepeatingReader {
        part: b"x ",
        left: 300_000,
    };
    let mut output = Vec::new(alloc);
    assert!(demangle_bytes(alloc, &mut input, &mut output, true).is_ok());
    assert_eq!(output.len(), 600_000usize);
    Ok(())
}
