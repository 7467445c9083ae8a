// Made from crates/demangle_v0_tokens/src/lib.rt by packaging/crate/erase.py: edit that file instead.
//! The tokens of v0 symbols (RFC 2603) and their fixed texts: how tokens and back references are
//! read, and how a token is printed.
pub mod backref;
pub mod fixed_texts;
pub mod output;
pub mod read;
pub mod render;
pub mod source;
pub mod tags;
pub mod token;
