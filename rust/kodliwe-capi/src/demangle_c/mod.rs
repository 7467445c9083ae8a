// Made from crates/demangle_c/src/lib.rt by packaging/crate/erase.py: edit that file instead.
//! The demangler as a static library for C, C++ and every language that calls C. Its header is
//! include/kodliwe.h.

#[cfg(test)]
mod tests;
mod version;

use crate::demangle_c::version::VERSION;
use crate::demangle_c_string::{
    MAX_SIZE, put_nul, symbol_of, text_of, write_folded_text, write_part, write_part_formatted,
    write_text,
};
use kodliwe::internal::rustc_demangle::sink::{SliceSink, TextSink};
use kodliwe::internal::rustc_demangle::{Format, write_with_path_len};

/// Writes a path from its byte `start` to memory, as far as the memory reaches. The path has
/// `path_len` bytes in the text. Returns the number of bytes of the whole printed path.
fn write_path_with(
    text: &str,
    path_len: usize,
    out: &mut [u8],
    include_hash: bool,
    limit: usize,
    start: usize,
) -> usize {
    let mut path = SliceSink::starting_at(out, start);
    match write_with_path_len(text, path_len, &mut path, include_hash, limit) {
        Ok(()) => path.len(),
        Err(_) => unreachable!(),
    }
}

/// Returns `true` if the bytes are a Rust symbol, after a suffix of ThinLTO is removed.
///
/// A symbol may be legacy or v0 (Rust RFC 2603). The call prints nothing and does not allocate, so
/// a program that lists symbols can call it for each.
pub fn kodliwe_is_symbol(symbol: &[u8]) -> bool {
    symbol_of(symbol).is_some()
}

/// Returns the number of bytes of a Rust symbol before a suffix that ThinLTO appended. Without such
/// a suffix, that is the length of the symbol. Returns 0 if the bytes are not a symbol.
///
/// The call prints nothing and does not allocate.
pub fn kodliwe_symbol_len(symbol: &[u8]) -> usize {
    match symbol_of(symbol) {
        Some(demangled) => demangled.as_str().len(),
        None => 0,
    }
}

/// Returns the number of bytes of a Rust symbol before its suffix and before a suffix that ThinLTO
/// appended. Returns 0 if the bytes are not a symbol.
///
/// `kodliwe_print_part` needs this number. The call prints nothing and does not allocate.
pub fn kodliwe_path_len(symbol: &[u8]) -> usize {
    if let Some(demangled) = symbol_of(symbol) {
        demangled.path_len()
    } else {
        0
    }
}

/// Writes the path of a Rust symbol to memory, from the path's byte `start`, with a 0 after it.
/// Returns the number of bytes of the whole path and a 0.
///
/// The path is cut at `limit` bytes, and at 1,000,000 at most. `{size limit reached}` and the
/// symbol's suffix follow a cut path.
///
/// If the bytes are not a symbol, the call returns 0 and leaves the memory unchanged. Otherwise the
/// result depends neither on the size of the memory nor on `start`. The memory receives the path
/// from `start` and a 0, if they fit. If they do not, it receives as much as fits before a 0. That
/// rest of the path is empty if `start` is at or after the path's end. No byte after the 0 is
/// changed, and memory of size 0 stays unchanged.
///
/// The call does not allocate. So a caller can print any path in parts through its own buffer.
pub fn kodliwe_demangle_part(
    symbol: &[u8],
    out: &mut [u8],
    include_hash: bool,
    limit: usize,
    start: usize,
) -> usize {
    write_part(symbol, out, include_hash, limit, start)
}

/// Writes a path as `kodliwe_demangle_part` does, and returns the same number, without searching
/// again for the end of the path. `path_len` is the nonzero result of `kodliwe_path_len` for these
/// bytes.
///
/// Other bytes or another number do no harm. The call then ends, changes no byte after the memory,
/// and returns at most the size of the limit, the marker, the symbol and the 0. The contents of the
/// memory are then unspecified. The call does not allocate.
pub fn kodliwe_print_part(
    symbol: &[u8],
    path_len: usize,
    out: &mut [u8],
    include_hash: bool,
    limit: usize,
    start: usize,
) -> usize {
    let Some(text) = text_of(symbol) else {
        return 0;
    };
    let limit = limit.min(MAX_SIZE);
    let wanted = write_path_with(text, path_len, out, include_hash, limit, start);
    put_nul(out, wanted.saturating_sub(start));
    wanted + 1
}

/// Writes a path as `kodliwe_demangle_part` does, from its first byte.
pub fn kodliwe_demangle_limited(
    symbol: &[u8],
    out: &mut [u8],
    include_hash: bool,
    limit: usize,
) -> usize {
    kodliwe_demangle_part(symbol, out, include_hash, limit, 0)
}

/// Writes a path as `kodliwe_demangle_limited` does, cut at 1,000,000 bytes.
pub fn kodliwe_demangle(symbol: &[u8], out: &mut [u8], include_hash: bool) -> usize {
    kodliwe_demangle_limited(symbol, out, include_hash, MAX_SIZE)
}

/// Writes a path as `kodliwe_demangle_limited` does, with `_` for each list of generic arguments.
///
/// So all instances of a generic function have one name. A legacy symbol prints completely, because
/// its arguments are parts of names.
pub fn kodliwe_demangle_folded(
    symbol: &[u8],
    out: &mut [u8],
    include_hash: bool,
    limit: usize,
) -> usize {
    let format = Format::folded(include_hash, limit);
    write_part_formatted(symbol, out, format, 0)
}

/// Writes a text as `kodliwe_demangle_text` does, with `_` for each list of generic arguments.
pub fn kodliwe_demangle_text_folded(
    text: &[u8],
    out: &mut [u8],
    include_hash: bool,
    limit: usize,
) -> usize {
    write_folded_text(text, out, include_hash, limit)
}

/// Writes bytes to memory with each Rust symbol replaced by its path, and a 0 after them. Returns
/// the number of bytes of that text and the 0.
///
/// A candidate symbol starts at `_ZN` or `_R`. It ends before the next byte that is not an ASCII
/// letter, a digit, `$`, `.` or `_`. It stays if it begins with `_RC`. A path also replaces a single
/// `_` before its symbol, if that `_` is the first byte or follows a byte that no symbol may have.
/// All other bytes stay unchanged.
///
/// Each path is cut at `limit` bytes, and at 1,000,000 at most. If `limit` is `usize::MAX`, none is
/// given: then a symbol of n bytes is cut at 999 n - 20 bytes, and at 1,000,000 at most. So the text
/// has at most 1,000 bytes for each of its own. A path is also cut where the references of its
/// symbol would make a print read more than 384 bytes again for each of its own, or more than
/// 384,000,000. The marker `{size limit reached}` and the suffix follow a cut path.
///
/// The result does not depend on the size of the memory. The memory receives as much of the text as
/// fits before a 0, and no byte after the 0 is changed. The result is `usize::MAX` if the number is
/// not smaller than that. The contents of the memory are then unspecified. The call does not
/// allocate.
pub fn kodliwe_demangle_text(
    text: &[u8],
    out: &mut [u8],
    include_hash: bool,
    limit: usize,
) -> usize {
    write_text(text, out, include_hash, limit)
}

/// Writes a text to memory, as far as the memory reaches.
fn write_all(text: &str, out: &mut [u8]) {
    let mut sink = SliceSink::new(out);
    let Ok(()) = sink.put(text) else {
        unreachable!()
    };
}

/// Writes a text to memory, with a 0 after it, or as much of it as fits before a 0.
fn write_c_string(text: &str, out: &mut [u8]) {
    write_all(text, out);
    put_nul(out, text.len());
}

/// Writes the name and the version of the library to memory, and whether it is proved, with a 0
/// after them. Returns the number of bytes of that text and the 0.
///
/// The result does not depend on the size of the memory. The memory receives as much of the text as
/// fits before a 0, and no byte after the 0 is changed. The call does not allocate.
pub fn kodliwe_version(out: &mut [u8]) -> usize {
    write_c_string(VERSION, out);
    VERSION.len() + 1
}

const _: () = {
    #[unsafe(no_mangle)]
    unsafe extern "C" fn kodliwe_is_symbol(symbol: *const u8, symbol_len: usize) -> bool {
        // SAFETY: each pointer and its length are memory of the caller, as the header says.
        unsafe { self::kodliwe_is_symbol(crate::support::memory::shared(symbol, symbol_len)) }
    }
};

const _: () = {
    #[unsafe(no_mangle)]
    unsafe extern "C" fn kodliwe_symbol_len(symbol: *const u8, symbol_len: usize) -> usize {
        // SAFETY: each pointer and its length are memory of the caller, as the header says.
        unsafe { self::kodliwe_symbol_len(crate::support::memory::shared(symbol, symbol_len)) }
    }
};

const _: () = {
    #[unsafe(no_mangle)]
    unsafe extern "C" fn kodliwe_path_len(symbol: *const u8, symbol_len: usize) -> usize {
        // SAFETY: each pointer and its length are memory of the caller, as the header says.
        unsafe { self::kodliwe_path_len(crate::support::memory::shared(symbol, symbol_len)) }
    }
};

const _: () = {
    #[unsafe(no_mangle)]
    unsafe extern "C" fn kodliwe_demangle_part(
        symbol: *const u8,
        symbol_len: usize,
        out: *mut u8,
        out_len: usize,
        include_hash: bool,
        limit: usize,
        start: usize,
    ) -> usize {
        // SAFETY: each pointer and its length are memory of the caller, as the header says.
        unsafe {
            self::kodliwe_demangle_part(
                crate::support::memory::shared(symbol, symbol_len),
                crate::support::memory::exclusive(out, out_len),
                include_hash,
                limit,
                start,
            )
        }
    }
};

const _: () = {
    #[unsafe(no_mangle)]
    unsafe extern "C" fn kodliwe_print_part(
        symbol: *const u8,
        symbol_len: usize,
        path_len: usize,
        out: *mut u8,
        out_len: usize,
        include_hash: bool,
        limit: usize,
        start: usize,
    ) -> usize {
        // SAFETY: each pointer and its length are memory of the caller, as the header says.
        unsafe {
            self::kodliwe_print_part(
                crate::support::memory::shared(symbol, symbol_len),
                path_len,
                crate::support::memory::exclusive(out, out_len),
                include_hash,
                limit,
                start,
            )
        }
    }
};

const _: () = {
    #[unsafe(no_mangle)]
    unsafe extern "C" fn kodliwe_demangle_limited(
        symbol: *const u8,
        symbol_len: usize,
        out: *mut u8,
        out_len: usize,
        include_hash: bool,
        limit: usize,
    ) -> usize {
        // SAFETY: each pointer and its length are memory of the caller, as the header says.
        unsafe {
            self::kodliwe_demangle_limited(
                crate::support::memory::shared(symbol, symbol_len),
                crate::support::memory::exclusive(out, out_len),
                include_hash,
                limit,
            )
        }
    }
};

const _: () = {
    #[unsafe(no_mangle)]
    unsafe extern "C" fn kodliwe_demangle(
        symbol: *const u8,
        symbol_len: usize,
        out: *mut u8,
        out_len: usize,
        include_hash: bool,
    ) -> usize {
        // SAFETY: each pointer and its length are memory of the caller, as the header says.
        unsafe {
            self::kodliwe_demangle(
                crate::support::memory::shared(symbol, symbol_len),
                crate::support::memory::exclusive(out, out_len),
                include_hash,
            )
        }
    }
};

const _: () = {
    #[unsafe(no_mangle)]
    unsafe extern "C" fn kodliwe_demangle_folded(
        symbol: *const u8,
        symbol_len: usize,
        out: *mut u8,
        out_len: usize,
        include_hash: bool,
        limit: usize,
    ) -> usize {
        // SAFETY: each pointer and its length are memory of the caller, as the header says.
        unsafe {
            self::kodliwe_demangle_folded(
                crate::support::memory::shared(symbol, symbol_len),
                crate::support::memory::exclusive(out, out_len),
                include_hash,
                limit,
            )
        }
    }
};

const _: () = {
    #[unsafe(no_mangle)]
    unsafe extern "C" fn kodliwe_demangle_text_folded(
        text: *const u8,
        text_len: usize,
        out: *mut u8,
        out_len: usize,
        include_hash: bool,
        limit: usize,
    ) -> usize {
        // SAFETY: each pointer and its length are memory of the caller, as the header says.
        unsafe {
            self::kodliwe_demangle_text_folded(
                crate::support::memory::shared(text, text_len),
                crate::support::memory::exclusive(out, out_len),
                include_hash,
                limit,
            )
        }
    }
};

const _: () = {
    #[unsafe(no_mangle)]
    unsafe extern "C" fn kodliwe_demangle_text(
        text: *const u8,
        text_len: usize,
        out: *mut u8,
        out_len: usize,
        include_hash: bool,
        limit: usize,
    ) -> usize {
        // SAFETY: each pointer and its length are memory of the caller, as the header says.
        unsafe {
            self::kodliwe_demangle_text(
                crate::support::memory::shared(text, text_len),
                crate::support::memory::exclusive(out, out_len),
                include_hash,
                limit,
            )
        }
    }
};

const _: () = {
    #[unsafe(no_mangle)]
    unsafe extern "C" fn kodliwe_version(out: *mut u8, out_len: usize) -> usize {
        // SAFETY: each pointer and its length are memory of the caller, as the header says.
        unsafe { self::kodliwe_version(crate::support::memory::exclusive(out, out_len)) }
    }
};
