//! A library for C without std, which prints the path of a symbol into a caller's bytes.
#![no_std]

use core::fmt::{self, Write};

#[panic_handler]
fn panic(_: &core::panic::PanicInfo) -> ! {
    loop {}
}

struct Bytes<'b> {
    out: &'b mut [u8],
    len: usize,
}

impl Write for Bytes<'_> {
    fn write_str(&mut self, text: &str) -> fmt::Result {
        let to = self
            .out
            .get_mut(self.len..self.len + text.len())
            .ok_or(fmt::Error)?;
        to.copy_from_slice(text.as_bytes());
        self.len += text.len();
        Ok(())
    }
}

/// Returns how many bytes the path has, or 0 if it does not fit.
///
/// # Safety
///
/// `symbol` and `out` point to as many bytes as the sizes after them say.
#[unsafe(no_mangle)]
pub unsafe extern "C" fn path_of(
    symbol: *const u8,
    len: usize,
    out: *mut u8,
    size: usize,
) -> usize {
    // SAFETY: the caller keeps that the sizes are right.
    let (symbol, out) = unsafe {
        (
            core::slice::from_raw_parts(symbol, len),
            core::slice::from_raw_parts_mut(out, size),
        )
    };
    let symbol = core::str::from_utf8(symbol).unwrap_or("");
    let mut to = Bytes { out, len: 0 };
    match write!(to, "{:#}", rustc_demangle::demangle(symbol)) {
        Ok(()) => to.len,
        Err(fmt::Error) => 0,
    }
}
