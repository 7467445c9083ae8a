//! Texts whose allocation may fail.
use super::alloc::{AllocError, Global};
use std::fmt;
use std::ops::Deref;

/// Rust's `String`. Each call that allocates returns a `Result`.
#[derive(Clone, PartialEq, Eq)]
pub struct String(std::string::String);

impl String {
    pub fn new(_alloc: Global) -> String {
        String(std::string::String::new())
    }

    pub fn from_std(text: std::string::String) -> String {
        String(text)
    }

    pub fn from_str(alloc: Global, text: &str) -> Result<String, AllocError> {
        let mut copy = String::new(alloc);
        copy.push_str(text)?;
        Ok(copy)
    }

    pub fn as_str(&self) -> &str {
        &self.0
    }

    pub fn push_str(&mut self, text: &str) -> Result<(), AllocError> {
        self.0.try_reserve(text.len()).map_err(|_| AllocError)?;
        self.0.push_str(text);
        Ok(())
    }
}

impl Deref for String {
    type Target = str;

    fn deref(&self) -> &str {
        &self.0
    }
}

impl fmt::Display for String {
    fn fmt(&self, f: &mut fmt::Formatter<'_>) -> fmt::Result {
        fmt::Display::fmt(&self.0, f)
    }
}

impl fmt::Debug for String {
    fn fmt(&self, f: &mut fmt::Formatter<'_>) -> fmt::Result {
        fmt::Debug::fmt(&self.0, f)
    }
}

impl fmt::Write for String {
    fn write_str(&mut self, text: &str) -> fmt::Result {
        self.push_str(text).map_err(|_| fmt::Error)
    }
}
