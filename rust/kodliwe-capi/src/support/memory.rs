//! Memory of a caller in C, as slices.
use core::slice;

/// Returns the bytes from a pointer as a slice. The pointer of an empty one may be null.
///
/// # Safety
///
/// The bytes can be read, and nothing writes to them, as long as the slice is used.
pub unsafe fn shared<'a>(start: *const u8, len: usize) -> &'a [u8] {
    if len == 0 {
        return &[];
    }
    // SAFETY: the caller ensures it.
    unsafe { slice::from_raw_parts(start, len) }
}

/// Returns the bytes from a pointer as a slice to write to. The pointer of an empty one may be null.
///
/// # Safety
///
/// The bytes can be read and written, and nothing else reads or writes them, as long as the slice
/// is used.
pub unsafe fn exclusive<'a>(start: *mut u8, len: usize) -> &'a mut [u8] {
    if len == 0 {
        return &mut [];
    }
    // SAFETY: the caller ensures it.
    unsafe { slice::from_raw_parts_mut(start, len) }
}
