//! What the functions that C calls need.
pub mod memory;
