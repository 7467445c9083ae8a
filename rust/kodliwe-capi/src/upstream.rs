//! The C function of the Rust crate `rustc-demangle`. The proved build has it from
//! `bindings/c/rustc_demangle.c`.
use core::ffi::{CStr, c_char, c_int};

use crate::demangle_c::kodliwe_demangle;
use crate::support::memory;

/// Writes the path of the symbol, without its hash, and a NUL to `out`. Returns 1 if `mangled` is a
/// Rust symbol and all of that fits, and otherwise 0.
///
/// # Safety
///
/// `mangled` is a C string, and `out` has `out_size` bytes that can be read and written.
#[unsafe(no_mangle)]
unsafe extern "C" fn rustc_demangle(
    mangled: *const c_char,
    out: *mut c_char,
    out_size: usize,
) -> c_int {
    // SAFETY: the caller ensures it.
    let (symbol, out) = unsafe {
        (
            CStr::from_ptr(mangled),
            memory::exclusive(out.cast(), out_size),
        )
    };
    let size = kodliwe_demangle(symbol.to_bytes(), out, false);
    c_int::from(size != 0 && size <= out_size)
}
