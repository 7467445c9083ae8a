// Made from crates/rustc_demangle/src/sink.rt by packaging/crate/erase.py: edit that file instead.
//! Sinks, which accept the printed text one piece at a time.
#[cfg(all(test, feature = "stream"))]
pub use crate::demangle_sink::{ArraySink, SinkRefused, WriteSink};
pub use crate::demangle_sink::{SliceSink, TextSink};
