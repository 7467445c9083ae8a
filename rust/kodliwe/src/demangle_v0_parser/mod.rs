// Made from crates/demangle_v0_parser/src/lib.rt by packaging/crate/erase.py: edit that file instead.
//! The v0 parser as a state machine: its state, and a method for each production.
//!
//! The parser does not recurse. Each `Continuation` names a position in a production of the
//! grammar. Its method reads up to the next nested production, pushes a frame for what follows that
//! production, and returns the continuation to run next.

use crate::demangle_v0_parser::frames::Frame;
use crate::demangle_v0_tokens::fixed_texts::FixedText;

mod arguments;
pub mod asides;
mod backrefs;
mod binders;
mod bindings;
mod constant_lists;
mod constants;
mod dispatch;
mod dyn_traits;
mod errors;
mod fixed_texts;
pub mod frames;
pub mod fuel;
mod functions;
mod impls;
mod lists;
mod names;
mod nested_names;
mod out_of_line;
pub mod parse;
mod paths;
mod patterns;
mod reference_types;
pub mod step;
pub mod stops;
pub mod targets;
mod tokens;
mod tuples;
mod types;
mod variants;

/// A continuation: a position in the grammar from which parsing continues.
///
/// It is either the start of a production, such as `Path`, or a position inside one, such as
/// `CloseAngle`.
#[derive(Clone, Copy)]
pub enum Continuation {
    // These eight come first because the loops test for them, and a range takes one comparison.
    /// The path of an inherent impl. It is parsed but not printed.
    InherentImplPath,
    /// The path of a trait impl. It is parsed but not printed.
    TraitImplPath,
    /// The first generic argument, or the end of the list. The list may be folded.
    FirstArgument,
    /// The first argument of a dyn trait path, or the end of the arguments. They may be folded.
    FirstTraitArgument,
    /// The path to which a reference leads. Its text may be put again.
    TargetPath,
    /// The type to which a reference leads. Its text may be put again.
    TargetType,
    /// The constant to which a reference leads. Its text may be put again.
    TargetConstant,
    /// The production is complete. The frame on top of the stack has what follows.
    End,
    // path
    Path,
    /// The name of a nested path, after the path that it is in.
    NestedName,
    /// The `<` and the self type of an inherent impl.
    InherentSelfType,
    /// The `<` and the self type before a trait.
    TraitSelfType,
    /// The ` as ` and the trait after a self type.
    AsTrait,
    /// A `>`, with which a path ends.
    CloseAngle,
    /// The generic arguments of a path, with `::` before them in value position.
    Generic,
    /// The `<` before generic arguments.
    OpenArguments,
    /// The end of generic arguments that were folded. It prints `_` for them.
    FoldedArguments,
    /// A further generic argument, or the end of the list.
    NextArgument,
    /// A lifetime that is a generic argument, after its `L`.
    Lifetime,
    // type
    Type,
    /// A type after its `w` (`#[splat]`).
    TaggedType,
    /// The `; ` and the length of an array type.
    ArrayLength,
    /// A `]`, with which a type ends.
    CloseBracket,
    /// The first type of a tuple, or the end of the tuple.
    FirstTupleType,
    /// The second type of a tuple, or the end of the tuple after one type.
    SecondTupleType,
    /// A further type of a tuple, or the end of the tuple.
    NextTupleType,
    /// A `)`, with which a tuple type or constant ends.
    CloseParen,
    /// The lifetime of a `&` type, after its `L`.
    ReferenceLifetime,
    /// The lifetime of a `&mut` type, after its `L`.
    MutReferenceLifetime,
    /// The `mut ` and the type of a reference or pointer.
    Mut,
    /// The `const ` and the type of a pointer.
    Const,
    /// The ` is ` and the pattern of a pattern type.
    PatternIs,
    // fn-sig
    /// `unsafe` and the ABI.
    FunctionQualifiers,
    /// The `fn(` before the parameters.
    OpenParameters,
    /// The first parameter, or the end of the parameters.
    FirstParameter,
    /// A further parameter, or the end of the parameters.
    NextParameter,
    /// The return type, if it is not `()`.
    Returns,
    // dyn-bounds
    /// The binder of dyn traits. The traits follow.
    DynBinder,
    /// The first dyn trait, or the end of the traits.
    FirstDynTrait,
    /// A further dyn trait, or the end of the traits.
    NextDynTrait,
    /// The path of a dyn trait.
    TraitPath,
    /// The `<` before the arguments of a dyn trait path.
    OpenTraitArguments,
    /// The end of a dyn trait path's arguments that were folded. It prints `_` for them.
    FoldedTraitArguments,
    /// A further argument of a dyn trait path, or the end of the arguments.
    NextTraitArgument,
    /// Associated type bindings, such as `Item = u8`.
    Bindings,
    /// Further bindings. The `<` is open.
    FurtherBindings,
    /// The name of a binding, after its `p`.
    BindingName,
    /// The value of a binding.
    BindingValue,
    /// The lifetime of a dyn type, after its traits.
    DynLifetime,
    // pattern
    Pattern,
    /// The `..=` and the end of a range.
    RangeEnd,
    /// A further alternative of a pattern, or the end of the pattern.
    NextPattern,
    // const
    Constant,
    /// The nibbles of a number, whose type tag is the letter of the state.
    Number,
    /// The `*` before a string.
    StrConstant,
    /// The nibbles of a string.
    StrLiteral,
    /// The `&` and the constant of a reference.
    ReferenceConstant,
    /// The `&` before `mut ` and the constant of a reference.
    MutReferenceConstant,
    /// The `mut ` and the constant of a reference.
    MutableConstant,
    /// The `[` of an array.
    ArrayConstant,
    /// The first element of an array, or its end.
    FirstArrayConstant,
    /// A further element of an array, or its end.
    NextArrayConstant,
    /// The `(` of a tuple.
    TupleConstant,
    /// The first element of a tuple, or its end.
    FirstTupleConstant,
    /// The second element of a tuple, or its end after one element.
    SecondTupleConstant,
    /// A further element of a tuple, or its end.
    NextTupleConstant,
    /// The fields of a variant, after its path.
    Variant,
    /// The first unnamed field of a variant, or the end of its fields.
    FirstVariantConstant,
    /// A further unnamed field of a variant, or the end of its fields.
    NextVariantConstant,
    /// The first named field of a variant, or the end of its fields.
    FirstField,
    /// A further named field of a variant, or the end of its fields.
    NextField,
    /// The name of a field. Its value follows.
    Field,
    /// The `: ` and the value of a field.
    FieldColon,
    /// A `}`, with which a constant ends.
    CloseBrace,
    /// The target of a back reference is complete. Parsing continues after the reference.
    AfterBackref,
}

/// The parser's state, apart from the frame stack.
// The compiler keeps the order of the fields. In this one the fewest bytes are unused.
#[derive(Clone, Copy)]
pub struct State {
    /// The number of lifetimes in scope.
    pub lifetimes: u128,
    /// The offset of the next byte, or `None` after an error.
    pub place: Option<usize>,
    /// How many more levels of nesting are allowed.
    pub depth_left: u16,
    /// Whether the current path or constant is in value position.
    pub in_value: bool,
    /// The namespace of a nested path, or the type tag of a number.
    pub letter: u8,
    /// Whether the `<` of the last dyn trait path is still open.
    pub is_bracket_open: bool,
    /// The fixed text that `steps` prints after the continuation's method returns.
    pub pending_text: Option<FixedText>,
}

/// Why a step failed.
#[derive(Clone, Copy)]
pub enum StepError {
    /// The output failed.
    Sink,
    /// The production ends early and prints this text, such as `{invalid syntax}`.
    Abort(FixedText),
}

impl State {
    /// Returns a frame that resumes this production at `continuation`.
    #[cfg_attr(not(debug_assertions), inline(always))]
    fn frame(&self, continuation: Continuation) -> Frame {
        Frame {
            continuation,
            in_value: self.in_value,
            letter: self.letter,
            depth_left: self.depth_left,
            number: self.lifetimes,
        }
    }
}
