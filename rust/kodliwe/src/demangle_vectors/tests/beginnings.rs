// Made from crates/demangle_vectors/src/tests/beginnings.rt by packaging/crate/erase.py: edit that file instead.
//! Tests of symbols that are cut off.
use super::vectors::texts;
use crate::demangle_vectors::printed_by;
use crate::rustc_demangle::{demangle, demangle_bytes, demangle_stream, stays, try_demangle};
use crate::support::alloc::Global;
use crate::support::rt::HostRuntime;
use crate::support::vec::CollectIn;
use crate::support::vec::Vec;
use std::io::ErrorKind;

use crate::support::test::Fail;
use crate::test_doubles::streams::ChunkReader;

/// Asserts the printed form of a text. A rejected text prints itself, an accepted one prints the
/// same by both calls, and stripping a second time changes nothing.
fn assert_printed(alloc: Global, text: &str) -> Result<(), Fail> {
    let symbol = demangle(text);
    let stripped = symbol.as_str();
    // If nothing was stripped, there is nothing more to strip.
    if stripped != text {
        assert_eq!(demangle(stripped).as_str(), stripped);
    }
    let tried = try_demangle(text);
    for include_hash in [true, false] {
        let printed = printed_by(alloc, &symbol, include_hash)?;
        match &tried {
            Ok(tried) => {
                let again = printed_by(alloc, tried, include_hash)?;
                assert!(again.as_slice() == printed.as_slice(), "{text}");
            }
            Err(_) => assert!(printed.as_slice() == stripped.as_bytes(), "{text}"),
        }
    }
    Ok(())
}

/// Returns a digest of bytes (FNV-1a with 64 bits) that continues an earlier digest.
fn digest_of(before: u64, bytes: &[u8]) -> u64 {
    let mut digest = before;
    for byte in bytes {
        digest = (digest ^ u64::from(*byte)).wrapping_mul(0x0100_0000_01B3);
    }
    digest
}

/// The digest of the empty text.
const OF_NOTHING: u64 = 0xCBF2_9CE4_8422_2325;

/// The digests of the output of the Rust crate's stream for the cut symbols, with the hash and
/// without it. Each symbol has a line feed after it.
const WRITTEN: [(bool, u64); 2] = [
    (true, 0xA761_CF34_3FBD_2746),
    (false, 0xC1DA_C274_FAC4_9C89),
];

/// Returns the output of the stream for a text.
fn filter_text(alloc: Global, text: &str, include_hash: bool) -> Result<Vec<u8>, Fail> {
    let mut input = text.as_bytes();
    let mut output = Vec::new(alloc);
    demangle_stream(alloc, &mut input, &mut output, include_hash)?;
    if input.is_empty() {
        Ok(output)
    } else {
        Err("bytes of the input are left".into())
    }
}

/// Returns the output of the filter of bytes for a text, read in chunks of `size` bytes.
fn filter_parts(
    alloc: Global,
    text: &str,
    size: usize,
    include_hash: bool,
) -> Result<Vec<u8>, Fail> {
    let parts: Vec<&[u8]> = text.as_bytes().chunks(size.max(1)).collect_in(alloc)?;
    let mut input = ChunkReader::new(parts.as_slice(), usize::MAX, ErrorKind::Other);
    let mut output = Vec::new(alloc);
    match demangle_bytes(alloc, &mut input, &mut output, include_hash) {
        Ok(()) => Ok(output),
        Err(fault) => Err(fault.into_io().into()),
    }
}

#[test]
fn each_prefix_of_a_symbol_is_accepted() -> Result<(), Fail> {
    let rt = HostRuntime;
    let alloc = rt.alloc();
    for text in texts(alloc)?.iter() {
        let text = text.as_str();
        for len in 0..=text.len() {
            if let Some(beginning) = text.get(..len) {
                assert_printed(alloc, beginning)?;
            }
        }
    }
    Ok(())
}

#[test]
fn the_stream_writes_for_each_prefix_what_the_crate_writes() -> Result<(), Fail> {
    let rt = HostRuntime;
    let alloc = rt.alloc();
    for (include_hash, wanted) in WRITTEN {
        let mut digest = OF_NOTHING;
        for text in texts(alloc)?.iter() {
            let text = text.as_str();
            for len in 0..=text.len() {
                if let Some(beginning) = text.get(..len) {
                    let output = filter_text(alloc, beginning, include_hash)?;
                    digest = digest_of(digest_of(digest, output.as_slice()), b"\n");
                }
            }
        }
        assert_eq!(digest, wanted);
    }
    Ok(())
}

/// Returns whether the path of a symbol took the place of a `_` before it.
fn takes_underscore(text: &str, output: &[u8]) -> bool {
    (text.starts_with("__ZN") || text.starts_with("__R")) && output != text.as_bytes()
}

#[test]
fn chunks_of_any_size_give_what_the_crate_writes() -> Result<(), Fail> {
    let rt = HostRuntime;
    let alloc = rt.alloc();
    for ((include_hash, wanted), size) in WRITTEN.iter().zip([1, 3]) {
        let mut digest = OF_NOTHING;
        for text in texts(alloc)?.iter() {
            let text = text.as_str();
            for len in 0..=text.len() {
                if let Some(beginning) = text.get(..len) {
                    let output = filter_parts(alloc, beginning, size, *include_hash)?;
                    if stays(beginning.as_bytes()) {
                        // The crate writes its path.
                        assert!(output.as_slice() == beginning.as_bytes(), "{beginning}");
                        let path = filter_text(alloc, beginning, *include_hash)?;
                        digest = digest_of(digest, path.as_slice());
                    } else {
                        // The crate keeps the `_` that macOS writes before a symbol.
                        if takes_underscore(beginning, output.as_slice()) {
                            digest = digest_of(digest, b"_");
                        }
                        digest = digest_of(digest, output.as_slice());
                    }
                    digest = digest_of(digest, b"\n");
                }
            }
        }
        assert_eq!(digest, *wanted, "by fillings of {size}");
    }
    Ok(())
}
