//! The public interface of the crate `rustc-demangle` 0.1.28 over Kodliwe.
//!
//! A program that depends on that crate uses this one instead by two lines in its `Cargo.toml`:
//!
//! ```toml
//! [patch.crates-io]
//! rustc-demangle = { path = "kodliwe/rust/rustc-demangle" }
//! ```
//!
//! ```
//! use rustc_demangle::demangle;
//!
//! let name = demangle("_ZN4core6option15Option$LT$T$GT$6unwrap17h0123456789abcdefE");
//! assert_eq!(format!("{name}"), "core::option::Option<T>::unwrap::h0123456789abcdef");
//! assert_eq!(format!("{name:#}"), "core::option::Option<T>::unwrap");
//! assert_eq!(demangle("_RNvC5krate4main").to_string(), "krate::main");
//! assert_eq!(demangle("main").to_string(), "main");
//! ```
#![no_std]
#![warn(missing_docs)]
#![forbid(unsafe_code)]

#[cfg(feature = "std")]
extern crate std;

use core::fmt;

#[cfg(feature = "std")]
pub use kodliwe::demangle_stream;

/// A text, demangled if it is a Rust symbol.
///
/// [`Display`](fmt::Display) and [`Debug`](fmt::Debug) print the path that the symbol names. The
/// alternate form (`{:#}`) leaves out the hash of a legacy symbol, and of a v0 symbol the
/// disambiguators of crates and the types of numbers. A text that is not a symbol is printed
/// unchanged. Width, precision and other flags have no effect.
///
/// Printing allocates nothing. A path is cut at 1,000,000 bytes: `{size limit reached}` and the
/// symbol's suffix follow.
pub struct Demangle<'a>(kodliwe::Demangle<'a>);

impl<'a> Demangle<'a> {
    /// Returns the original text, without a suffix that ThinLTO added.
    pub fn as_str(&self) -> &'a str {
        self.0.as_str()
    }
}

impl fmt::Display for Demangle<'_> {
    fn fmt(&self, f: &mut fmt::Formatter<'_>) -> fmt::Result {
        fmt::Display::fmt(&self.0, f)
    }
}

impl fmt::Debug for Demangle<'_> {
    fn fmt(&self, f: &mut fmt::Formatter<'_>) -> fmt::Result {
        fmt::Display::fmt(&self.0, f)
    }
}

/// The error of [`try_demangle`]: the text is not a Rust symbol.
#[derive(Debug, Clone)]
pub struct TryDemangleError {
    _priv: (),
}

/// Reads a text as a Rust symbol. A text that is not a symbol prints unchanged.
///
/// First removes a suffix that ThinLTO added, even from a text that is not a symbol.
///
/// ```
/// use rustc_demangle::demangle;
///
/// assert_eq!(demangle("_ZN5krate6module4itemE").to_string(), "krate::module::item");
/// assert_eq!(demangle("krate").as_str(), "krate");
/// ```
#[inline]
pub fn demangle(s: &str) -> Demangle<'_> {
    Demangle(kodliwe::demangle(s))
}

/// Reads a text as a Rust symbol.
///
/// # Errors
///
/// Fails if the text is not a Rust symbol.
///
/// ```
/// use rustc_demangle::try_demangle;
///
/// assert!(try_demangle("_RNvC5krate4main").is_ok());
/// assert!(try_demangle("main").is_err());
/// ```
#[inline]
pub fn try_demangle(s: &str) -> Result<Demangle<'_>, TryDemangleError> {
    match kodliwe::try_demangle(s) {
        Ok(read) => Ok(Demangle(read)),
        Err(_) => Err(TryDemangleError { _priv: () }),
    }
}
