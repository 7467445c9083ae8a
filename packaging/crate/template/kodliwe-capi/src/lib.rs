//! The library for C. Its headers are `include/kodliwe.h` and `include/rustc_demangle.h`.
#![cfg_attr(not(test), no_std)]

// MODULES
mod support;
mod upstream;

// The C library has `memcpy`, `memmove`, `memset`, `memcmp` and `strlen`.
#[cfg(all(unix, not(target_vendor = "apple"), not(test)))]
#[link(name = "c")]
unsafe extern "C" {}

#[cfg(all(target_vendor = "apple", not(test)))]
#[link(name = "System")]
unsafe extern "C" {}

// It has the start of a DLL, too.
#[cfg(all(windows, target_env = "msvc", not(test)))]
#[link(name = "msvcrt")]
unsafe extern "C" {}

/// Ends the process. The source is proved never to panic.
#[cfg(not(test))]
#[panic_handler]
fn abort(_: &core::panic::PanicInfo<'_>) -> ! {
    // SAFETY: this instruction raises a fault, and nothing after it runs.
    #[cfg(any(target_arch = "x86", target_arch = "x86_64"))]
    unsafe {
        core::arch::asm!("ud2", options(noreturn, nomem, nostack))
    }
    // SAFETY: as above.
    #[cfg(any(target_arch = "aarch64", target_arch = "arm"))]
    unsafe {
        core::arch::asm!("udf #0", options(noreturn, nomem, nostack))
    }
    #[cfg(not(any(
        target_arch = "x86",
        target_arch = "x86_64",
        target_arch = "aarch64",
        target_arch = "arm"
    )))]
    {
        unsafe extern "C" {
            fn abort() -> !;
        }
        // SAFETY: the C library has this function, and it does not return.
        unsafe { abort() }
    }
}
