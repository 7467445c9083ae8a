//! The means by which a test may end the process.
use super::rt::HostRuntime;

/// A handle by which an assertion may panic.
pub trait Abort {}

impl Abort for HostRuntime {}
