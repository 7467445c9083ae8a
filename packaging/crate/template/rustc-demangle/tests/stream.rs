//! Filtered texts, which are those of the published crate. This file is compiled with either.
#![cfg(feature = "std")]
use rustc_demangle::demangle_stream;
use std::io::{self, ErrorKind, Read, Write};

fn streamed(text: &str, include_hash: bool) -> String {
    let mut output = Vec::new();
    demangle_stream(&mut text.as_bytes(), &mut output, include_hash).expect("a vector takes all");
    String::from_utf8(output).expect("text")
}

/// A writer that accepts a given number of writes.
struct Takes(usize, Vec<u8>);

impl Write for Takes {
    fn write(&mut self, bytes: &[u8]) -> io::Result<usize> {
        self.0 = self.0.checked_sub(1).ok_or(ErrorKind::BrokenPipe)?;
        self.1.extend_from_slice(bytes);
        Ok(bytes.len())
    }

    fn flush(&mut self) -> io::Result<()> {
        Ok(())
    }
}

/// A reader that fails after its text.
struct Fails<'t>(&'t [u8]);

impl Read for Fails<'_> {
    fn read(&mut self, to: &mut [u8]) -> io::Result<usize> {
        match self.0.read(to)? {
            0 => Err(ErrorKind::ConnectionReset.into()),
            some => Ok(some),
        }
    }
}

#[test]
fn each_symbol_is_printed_and_the_rest_is_kept() {
    assert_eq!(streamed("", true), "");
    assert_eq!(streamed("no symbol\r\n\n", true), "no symbol\r\n\n");
    assert_eq!(
        streamed("_ZN3fooE.llvm moocow _ZN3fooE.llvm", false),
        "foo.llvm moocow foo.llvm"
    );
    let text = "0: _ZN3foo17h05af221e174051e9E (größe)\n1: _RNvC3foo3bar:17\n_RCs_3foo";
    assert_eq!(
        streamed(text, true),
        "0: foo::h05af221e174051e9 (größe)\n1: foo::bar:17\nfoo[1]"
    );
    assert_eq!(streamed(text, false), "0: foo (größe)\n1: foo::bar:17\nfoo");
}

#[test]
fn what_only_begins_as_a_symbol_is_kept() {
    assert_eq!(
        streamed("_ZN _R __R _Z _ZN3fo _RNvC3foo3ba\n", false),
        "_ZN _R __R _Z _ZN3fo _RNvC3foo3ba\n"
    );
    assert_eq!(streamed("x_ZN3fooE", false), "xfoo");
    assert_eq!(
        streamed("_ZN3fooE.llvm.9D1C9369 _ZN8_$u20ac$E", false),
        "foo €"
    );
    assert_eq!(streamed("__ZN3fooE", false), "_foo");
    assert_eq!(streamed("ZN3fooE", false), "ZN3fooE");
    assert_eq!(streamed("_ZN3foo€_ZN3fooE", false), "_ZN3foo€foo");
}

#[test]
fn an_error_of_the_writer_ends_it() {
    let text = "a _ZN3fooE b _ZN3barE c";
    for takes in 0..5 {
        let mut output = Takes(takes, vec![]);
        let error = demangle_stream(&mut text.as_bytes(), &mut output, false).unwrap_err();
        assert_eq!(error.kind(), ErrorKind::BrokenPipe);
        assert_eq!(
            output.1,
            ["a ", "foo", " b ", "bar", " c"][..takes]
                .concat()
                .as_bytes()
        );
    }
    assert!(demangle_stream(&mut text.as_bytes(), &mut Takes(5, vec![]), false).is_ok());
}

#[test]
fn an_error_of_the_reader_ends_it() {
    let mut output = vec![];
    let mut input = io::BufReader::new(Fails(b"_ZN3fooE\n_ZN3barE"));
    let error = demangle_stream(&mut input, &mut output, false).unwrap_err();
    assert_eq!(error.kind(), ErrorKind::ConnectionReset);
    assert_eq!(output, b"foo\n");
}

#[test]
fn a_line_that_is_no_text_is_an_error() {
    let mut output = vec![];
    let error =
        demangle_stream(&mut &b"_ZN3fooE\n\xFF _ZN3barE\n"[..], &mut output, false).unwrap_err();
    assert_eq!(error.kind(), ErrorKind::InvalidData);
    assert_eq!(output, b"foo\n");
}
