// Replaces the published crate's modules, whose unit tests are put here. The names that they use are defined by the public
// calls. No public call reports which error a rejected symbol has.
extern crate rustc_demangle;

pub use rustc_demangle::{demangle, try_demangle};

#[cfg(all(test, feature = "std"))]
fn demangle_line(line: &str, output: &mut Vec<u8>, include_hash: bool) {
    rustc_demangle::demangle_stream(&mut line.as_bytes(), output, include_hash).unwrap()
}

// For the module v0.
#[cfg(test)]
mod refused {
    pub const MAX_DEPTH: u32 = 500;

    #[derive(PartialEq, Debug)]
    pub enum ParseError {
        RecursedTooDeep,
    }

    pub fn demangle(symbol: &str) -> Result<(), ParseError> {
        ::try_demangle(symbol)
            .map(|_| ())
            .map_err(|_| ParseError::RecursedTooDeep)
    }
}
