// Made from crates/demangle_v0_tokens/src/token.rt by packaging/crate/erase.py: edit that file instead.
//! The tokens of v0 symbols, each of which a step prints at once, and the kinds that are read.
use crate::demangle_symbol::cursor::{Ident, Part};
use crate::demangle_v0_tokens::fixed_texts::FixedText;

/// The ABI of a function type.
#[derive(Clone, Copy)]
pub enum Abi {
    /// The ABI of Rust. It is not printed.
    Rust,
    /// The ABI of C.
    C,
    /// The ABI with this name.
    Named(Part),
}

/// The kind of a token that is read from a symbol.
#[derive(Clone, Copy)]
pub enum TokenKind {
    FieldName,
    BindingName,
    LifetimeIndex,
    DynLifetime,
    FunctionQualifiers,
    Number,
    Bool,
    Character,
    StrLiteral,
}

/// A token: the pieces of one text, primitive, literal or binder, which a step prints at once.
#[derive(Clone, Copy)]
pub enum Token {
    /// A token without text.
    Nothing,
    /// A fixed text.
    Fixed(FixedText),
    /// The name of a crate, and its disambiguator.
    CrateName(Ident, u64),
    /// The name of a field.
    FieldName(Ident),
    /// The letter of a namespace, a disambiguator, and the name in the namespace.
    NestedName(u8, u64, Ident),
    /// A name after an error: `::?`.
    NameAfterError,
    /// A lifetime, with its number if it has one.
    Lifetime(Option<u128>),
    /// A lifetime that is not in scope.
    LifetimeError,
    /// The number of a reference's lifetime, which is printed with a space after it.
    SpacedLifetime(u128),
    /// A reference's lifetime that is not in scope.
    SpacedLifetimeError,
    /// The number of a dyn type's lifetime, which is printed after ` + `.
    DynLifetime(u128),
    /// A dyn type's lifetime that is not in scope.
    DynLifetimeError,
    /// Whether a function is unsafe, and its ABI.
    FunctionQualifiers(bool, Abi),
    /// The value of a number, if it has one, its nibbles and the tag of its type.
    Number(Option<u128>, Part, u8),
    /// The value of a character constant.
    Character(char),
    /// The nibbles of a string constant.
    StrLiteral(Part),
    /// The number of the first new lifetime, and how many there are.
    Binder(u128, u64),
    /// The name of a binding.
    BindingName(Ident),
}
