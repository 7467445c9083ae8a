//! Demangles Rust symbols of the legacy scheme (`_ZN..E`) and of v0 (`_R..`, [RFC 2603]).
//!
//! [`demangle`] returns a [`Demangle`], which prints the path that a symbol names. It prints by
//! [`Display`](core::fmt::Display), or into your own [`TextSink`].
//!
//! ```
//! let symbol = kodliwe::demangle("_ZN3foo3bar17h05af221e174051e9E");
//! assert_eq!(symbol.to_string(), "foo::bar::h05af221e174051e9");
//! // Without the hash:
//! assert_eq!(format!("{symbol:#}"), "foo::bar");
//! ```
//!
//! [`FmtSink`] writes into a `String` or any other [`core::fmt::Write`], in any [`Format`]:
//!
//! ```
//! use kodliwe::{FmtSink, Format, demangle};
//!
//! let format = Format::new().with_folded_arguments(true);
//! let mut path = String::new();
//! demangle("_RINvC3foo3barhE").write_formatted(&mut FmtSink::new(&mut path), format)?;
//! assert_eq!(path, "foo::bar::<_>");
//! # Ok::<(), kodliwe::SinkRefused>(())
//! ```
//!
//! [`demangle_text`] and [`demangle_slice`] demangle each symbol of a text in memory.
//!
//! Reading and printing a symbol allocates nothing. Reading takes time in proportion to the symbol.
//! Printing takes at most time in proportion to the product of its length and that of the printed
//! path. So a limit of the path bounds the time for a symbol that is made to be costly. Without a
//! limit of the caller, the calls over bytes take time, and write bytes, in proportion to the
//! length of what they read.
//!
//! # Features
//!
//! - `std`, which is on by default, adds `WriteSink`. Without it the crate is `no_std`.
//! - `stream`, which is off by default, adds `demangle_stream`, `demangle_bytes` and `BytesFilter`,
//!   which filter a reader into a writer. They alone allocate: they buffer one line, or one symbol,
//!   and `demangle_bytes` remembers the paths of symbols, in at most 5.5 MB, or 7.6 MB while that
//!   grows.
//!
//! # Where it comes from
//!
//! The modules of this crate are the source of Kodliwe, in Rattle, with the contracts erased.
//! Rattle is Rust with contracts, and a prover shows that each function of that source meets them.
//! Nothing is proved of this crate itself: it is compiled by rustc, and tested to return the same.
//!
//! [RFC 2603]: https://rust-lang.github.io/rfcs/2603-rust-symbol-name-mangling-v0.html
#![cfg_attr(not(feature = "std"), no_std)]
#![warn(missing_docs)]

#[cfg(all(test, feature = "stream"))]
mod call_tests;
mod demangle_legacy;
mod demangle_sink;
mod demangle_symbol;
mod demangle_v0;
mod demangle_v0_parser;
mod demangle_v0_tokens;
mod demangle_value;
#[cfg(all(test, feature = "stream"))]
mod demangle_vectors;
#[cfg(all(test, feature = "stream"))]
mod fault_tests;
#[cfg(all(test, feature = "stream"))]
mod filter_tests;
mod format;
#[cfg(all(test, feature = "stream"))]
mod format_tests;
#[doc(hidden)]
pub mod internal;
#[cfg(all(test, feature = "stream"))]
mod limit_tests;
#[cfg(feature = "stream")]
mod piece_buffer;
mod rustc_demangle;
#[cfg(feature = "stream")]
mod streams;
mod support;
mod symbols;
#[cfg(all(test, feature = "stream"))]
mod test_doubles;
#[cfg(feature = "stream")]
mod text_memo;
mod traits;

#[cfg(feature = "std")]
pub use demangle_sink::WriteSink;
pub use demangle_sink::{ArraySink, FmtSink, SinkRefused, SliceSink, TextSink};
pub use format::{Format, RereadLimit};
#[cfg(feature = "stream")]
pub use streams::{
    BytesFilter, StreamFault, demangle_bytes, demangle_bytes_formatted, demangle_bytes_limited,
    demangle_stream, demangle_stream_named,
};
pub use symbols::{
    Demangle, TryDemangleError, demangle, demangle_slice, demangle_slice_formatted, demangle_text,
    demangle_text_formatted, demangle_text_limited, try_demangle,
};

/// The most bytes that are printed for a symbol without a limit of the caller's, without its suffix.
/// The calls over bytes print fewer for a short one ([`Format`]).
pub const MAX_SIZE: usize = 1_000_000;
