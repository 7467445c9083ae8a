//! The runtime, as a value.
use super::alloc::Global;

/// The argument of `main`.
#[derive(Clone, Copy, Debug)]
pub struct HostRuntime;

pub trait Env {}

impl Env for HostRuntime {}

pub trait AllocGlobal {
    fn alloc(&self) -> Global {
        Global
    }
}

impl AllocGlobal for HostRuntime {}

impl HostRuntime {
    pub fn alloc(&self) -> Global {
        Global
    }
}
