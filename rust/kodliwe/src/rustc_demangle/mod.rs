// Made from crates/rustc_demangle/src/lib.rt by packaging/crate/erase.py: edit that file instead.
//! Demangles Rust symbols.
mod byte_before;
mod runs;
pub mod sink;
mod slice;
#[cfg(feature = "stream")]
mod stream;
mod text;

pub use crate::demangle_symbol::form::Form;
pub use crate::demangle_value::format::{Format, RereadLimit, SizeLimit};
pub use crate::demangle_value::value::Demangle;
pub use crate::demangle_value::value::printing::write_with_path_len;
pub use crate::demangle_value::{demangle, try_demangle};
#[cfg(feature = "stream")]
pub use runs::run_start;
#[cfg(all(test, feature = "stream"))]
pub use runs::{run_len, stays};
pub use slice::{demangle_slice, demangle_slice_formatted};
#[cfg(feature = "stream")]
pub use stream::{
    BytesFilter, StreamFault, SymbolMemo, demangle_bytes, demangle_bytes_counted,
    demangle_bytes_formatted, demangle_bytes_limited, demangle_stream, demangle_stream_named,
};
pub use text::{demangle_text, demangle_text_formatted, demangle_text_limited};
