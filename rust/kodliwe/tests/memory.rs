//! A `BytesFilter` writes the same if memory for what it prints and remembers can't be allocated.
#![cfg(feature = "stream")]
use kodliwe::BytesFilter;
use std::alloc::{GlobalAlloc, Layout, System};
use std::cell::Cell;
use std::ops::Range;
use std::ptr;

/// The system's allocator, which fails some of the allocations of a thread.
struct Failing;

thread_local! {
    /// How many allocations the thread made, and which of them fail.
    static TAKEN: Cell<usize> = const { Cell::new(0) };
    static FIRST_FAILED: Cell<usize> = const { Cell::new(usize::MAX) };
    static AFTER_FAILED: Cell<usize> = const { Cell::new(usize::MAX) };
}

// SAFETY: each call is the system's, with the same arguments, or fails.
unsafe impl GlobalAlloc for Failing {
    unsafe fn alloc(&self, layout: Layout) -> *mut u8 {
        let at = TAKEN.get();
        TAKEN.set(at + 1);
        if (FIRST_FAILED.get()..AFTER_FAILED.get()).contains(&at) {
            return ptr::null_mut();
        }
        // SAFETY: the caller meets the requirements of the call.
        unsafe { System.alloc(layout) }
    }

    unsafe fn dealloc(&self, place: *mut u8, layout: Layout) {
        // SAFETY: the caller meets the requirements of the call.
        unsafe { System.dealloc(place, layout) }
    }
}

#[global_allocator]
static FAILING: Failing = Failing;

/// Asserts what a filter writes if these allocations fail. Returns how many it made.
fn assert_written(text: &str, wanted: &str, failed: Range<usize>) -> usize {
    let mut filter = BytesFilter::new(false);
    let (mut input, mut output) = (text.as_bytes(), Vec::with_capacity(wanted.len()));
    let mut faults = 0;
    TAKEN.set(0);
    FIRST_FAILED.set(failed.start);
    AFTER_FAILED.set(failed.end);
    while !input.is_empty() {
        // No run reaches the end of the input, so none has to be held.
        faults += usize::from(filter.step(&mut input, &mut output).is_err());
        if faults > 0 {
            break;
        }
    }
    FIRST_FAILED.set(usize::MAX);
    let taken = TAKEN.get();
    assert_eq!(faults, 0, "{failed:?}");
    assert!(output == wanted.as_bytes(), "{failed:?}");
    taken
}

#[test]
fn failed_allocations_change_no_text() {
    // The text of the second symbol has 331,000 bytes.
    let name = "x".repeat(1_000);
    let long = format!("_RIC2abC1000{name}{}E", "B4_".repeat(330));
    let long_path = format!("ab::<{}>", vec![name; 331].join(", "));
    let short = "_RNvC5crate8function";
    let text = format!("{short}\n{long}\n{short}\n").repeat(3);
    let wanted = format!("crate::function\n{long_path}\ncrate::function\n").repeat(3);
    let taken = assert_written(&text, &wanted, usize::MAX..usize::MAX);
    // The buffer of 1,024 bytes doubles nine times. The memo has four tables.
    assert_eq!(taken, 1 + 9 + 4);
    for at in 0..taken {
        assert_written(&text, &wanted, at..at + 1);
        assert_written(&text, &wanted, at..usize::MAX);
    }
}
