//! What tests of the library do with texts besides.
use super::alloc::{AllocError, Global};
use super::string::String;

impl String {
    pub fn from_utf8_lossy(alloc: Global, bytes: &[u8]) -> Result<String, AllocError> {
        String::from_str(alloc, &std::string::String::from_utf8_lossy(bytes))
    }

    pub fn push(&mut self, c: char) -> Result<(), AllocError> {
        self.push_str(c.encode_utf8(&mut [0; 4]))
    }
}

/// `repeat(alloc, ..)`.
pub trait RepeatIn {
    fn repeat_in(&self, alloc: Global, count: usize) -> Result<String, AllocError>;
}

impl RepeatIn for str {
    fn repeat_in(&self, _alloc: Global, count: usize) -> Result<String, AllocError> {
        Ok(String::from_std(self.repeat(count)))
    }
}
