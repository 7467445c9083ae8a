// Made from crates/demangle_symbol/src/lib.rt by packaging/crate/erase.py: edit that file instead.
//! Reads the bytes of a symbol: one accessor, the primitives that they spell, and the characters of
//! names and literals.
pub mod cursor;
pub mod form;
pub mod literal;
pub mod punycode;
