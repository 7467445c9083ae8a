//! Items for the other packages of this workspace. They may change in any release.

// ITEMS
/// Memory and vectors, in the form of the source.
#[cfg(feature = "stream")]
pub mod support {
    pub use crate::support::{alloc, vec};
}
