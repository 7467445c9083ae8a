// Made from crates/kodliwe_tests/src/tests/notes.rt by packaging/crate/erase.py: edit that file instead.
//! Tests the notes on inputs that are compressed or encoded.
use super::run_one;
use super::streams::ChunkReader;
use crate::kodliwe_program::filtering::{BUFFER, FilterOutcome, Input, Part, Settings, filter_all};
use crate::support::alloc::Global;
use crate::support::rt::HostRuntime;
use crate::support::vec::Vec;
use crate::support::vec_in as vec;
use kodliwe::internal::rustc_demangle::Format;

use crate::support::test::Fail;

/// The first bytes of such inputs, and the notes on them.
const WITH_MAGIC_NUMBER: [(&[u8], &[u8]); 7] = [
    (
        b"\x1F\x8B\x08\0 _ZN1aE",
        b"kodliwe: note: log.txt looks compressed (gzip); decompress it first\n",
    ),
    (
        b"\x28\xB5\x2F\xFD _ZN1aE",
        b"kodliwe: note: log.txt looks compressed (zstd); decompress it first\n",
    ),
    (
        b"\xFD\x37\x7A\x58\x5A\0 _ZN1aE",
        b"kodliwe: note: log.txt looks compressed (xz); decompress it first\n",
    ),
    (
        b"\x04\x22\x4D\x18\x60 _ZN1aE",
        b"kodliwe: note: log.txt looks compressed (lz4); decompress it first\n",
    ),
    (
        b"BZh91AY&SY _ZN1aE",
        b"kodliwe: note: log.txt looks compressed (bzip2); decompress it first\n",
    ),
    (
        b"\xFF\xFEa\0 _ZN1aE",
        b"kodliwe: note: log.txt looks encoded (UTF-16); convert it to UTF-8 first\n",
    ),
    (
        b"\xFE\xFF\0a _ZN1aE",
        b"kodliwe: note: log.txt looks encoded (UTF-16); convert it to UTF-8 first\n",
    ),
];

/// The number of bytes of the shortest prefix that is noted.
const LENGTHS: [usize; 7] = [2, 4, 6, 4, 10, 2, 2];

/// Asserts the notes on the text of a reader. All text that is not a symbol is copied.
fn assert_note(
    alloc: Global,
    reader: ChunkReader<'_>,
    text: &[u8],
    note: &[u8],
) -> Result<(), Fail> {
    let mut output = Vec::new(alloc);
    let (ended, errors) = run_one(alloc, reader, &mut output, false)?;
    assert_eq!(ended, FilterOutcome::Complete, "of {text:?}");
    let copied = text.strip_suffix(b"_ZN1aE").unwrap_or(text);
    assert!(output.as_slice().starts_with(copied), "of {text:?}");
    assert_eq!(errors.as_slice(), note, "of {text:?}");
    Ok(())
}

#[test]
fn a_first_chunk_with_a_mark_is_noted_once() -> Result<(), Fail> {
    let rt = HostRuntime;
    let alloc = rt.alloc();
    for (text, note) in WITH_MAGIC_NUMBER {
        assert_note(alloc, ChunkReader::new(text, 100), text, note)?;
        let interrupted = ChunkReader::new(text, 12).interrupted();
        assert_note(alloc, interrupted, text, note)?;
    }
    Ok(())
}

#[test]
fn a_mark_that_is_cut_is_not_noted() -> Result<(), Fail> {
    let rt = HostRuntime;
    let alloc = rt.alloc();
    for ((text, note), least) in WITH_MAGIC_NUMBER.into_iter().zip(LENGTHS) {
        for len in 0..=text.len() {
            let wanted: &[u8] = if len < least { b"" } else { note };
            let prefix = &text[..len];
            assert_note(alloc, ChunkReader::new(prefix, 100), prefix, wanted)?;
            if len > 0 {
                assert_note(alloc, ChunkReader::new(text, len), text, wanted)?;
            }
        }
    }
    Ok(())
}

#[test]
fn a_mark_after_the_beginning_is_not_noted() -> Result<(), Fail> {
    let rt = HostRuntime;
    let alloc = rt.alloc();
    for (text, _) in WITH_MAGIC_NUMBER {
        for prefix in [1, BUFFER] {
            let mut long = vec![in alloc; b'x'; prefix]?;
            long.extend_from_slice(text)?;
            let reader = ChunkReader::new(long.as_slice(), BUFFER);
            assert_note(alloc, reader, long.as_slice(), b"")?;
        }
    }
    let others: [&[u8]; 6] = [
        b"BZh9 1AY&SY",
        b"\x1F\x8C",
        b"\xFE\xFE",
        b"\xFF\xFF",
        b"PK\x03\x04",
        b"\xEF\xBB\xBF",
    ];
    for text in others {
        assert_note(alloc, ChunkReader::new(text, 100), text, b"")?;
    }
    Ok(())
}

#[test]
fn each_input_is_noted_by_its_name() -> Result<(), Fail> {
    let rt = HostRuntime;
    let alloc = rt.alloc();
    let mut inputs = Vec::new(alloc);
    for name in ["a", "b\n", "c", "a"] {
        let text: &[u8] = if name == "c" { b"c" } else { b"\x1F\x8B" };
        let reader = ChunkReader::new(text, 100);
        inputs.push(Part::Text(Input { name, reader }))?;
    }
    let settings = Settings {
        alloc,
        format: Format::unfolded(false, 1_000_000),
    };
    let mut output = Vec::new(alloc);
    let mut errors = Vec::new(alloc);
    let ended = filter_all(settings, inputs, &mut output, &mut errors);
    assert_eq!(ended, FilterOutcome::Complete);
    let wanted: &[u8] = b"\x1F\x8B\x1F\x8Bc\x1F\x8B";
    assert_eq!(output.as_slice(), wanted);
    let notes: &[u8] = b"kodliwe: note: a looks compressed (gzip); decompress it first\n\
        kodliwe: note: 'b\\n' looks compressed (gzip); decompress it first\n\
        kodliwe: note: a looks compressed (gzip); decompress it first\n";
    assert_eq!(errors.as_slice(), notes);
    Ok(())
}
