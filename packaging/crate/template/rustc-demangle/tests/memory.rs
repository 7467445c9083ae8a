//! No call and no printing allocates. This file is compiled with the published crate too.
use rustc_demangle::{demangle, try_demangle};
use std::alloc::{GlobalAlloc, Layout, System};
use std::cell::Cell;
use std::fmt::{self, Write};

/// The system's allocator, which counts the allocations of each thread.
struct Counted;

thread_local! {
    static TAKEN: Cell<usize> = const { Cell::new(0) };
}

// SAFETY: each call is the system's, with the same arguments.
unsafe impl GlobalAlloc for Counted {
    unsafe fn alloc(&self, layout: Layout) -> *mut u8 {
        TAKEN.with(|taken| taken.set(taken.get() + 1));
        // SAFETY: the caller meets the requirements of the call.
        unsafe { System.alloc(layout) }
    }

    unsafe fn dealloc(&self, place: *mut u8, layout: Layout) {
        // SAFETY: the caller meets the requirements of the call.
        unsafe { System.dealloc(place, layout) }
    }
}

#[global_allocator]
static COUNTED: Counted = Counted;

fn taken() -> usize {
    TAKEN.with(Cell::get)
}

/// A writer that counts bytes and stores none.
struct Length(usize);

impl Write for Length {
    fn write_str(&mut self, text: &str) -> fmt::Result {
        self.0 += text.len();
        Ok(())
    }
}

#[test]
fn a_string_takes_memory() {
    let before = taken();
    let text = demangle("_ZN3foo3barE").to_string();
    assert!(taken() > before, "{text}");
}

#[test]
fn printing_takes_no_memory() {
    let tree = "_RMC0TTTTTTTTTTTTTTTTTTpBk_EBj_EBi_EBh_EBg_EBf_EBe_EBd_EBc_EBb_EBa_EB9_EB8_EB7_EB6_EB5_EB4_EB3_E";
    let name = format!("_RNvC1a20000{}", "n".repeat(20_000));
    let tuples = format!("_RMC0{}{}", "T".repeat(200), "E".repeat(200));
    for symbol in [tree, &name, &tuples, "_ZN3foo17h05af221e174051e9E", "main"] {
        let before = taken();
        let mut length = Length(0);
        let symbols = usize::from(try_demangle(symbol).is_ok());
        write!(length, "{0}{0:#}", demangle(symbol)).expect("it takes all");
        assert_eq!(taken(), before);
        assert!(length.0 > symbols);
    }
}
