// Made from crates/demangle_v0_tokens/src/tags.rt by packaging/crate/erase.py: edit that file instead.
//! The tags, and the kinds of paths, types, constants, variants and patterns that they begin.

/// The kind of a path.
#[derive(Clone, Copy)]
pub enum PathKind {
    CrateRoot,
    NestedName,
    InherentImpl,
    TraitImpl,
    TraitDefinition,
    Generic,
    Backref,
}

/// Returns the kind of the path that begins with a tag, or `None` if no path does.
#[cfg_attr(not(debug_assertions), inline(always))]
pub fn path_kind(tag: u8) -> Option<PathKind> {
    match tag {
        b'C' => Some(PathKind::CrateRoot),
        b'N' => Some(PathKind::NestedName),
        b'M' => Some(PathKind::InherentImpl),
        b'X' => Some(PathKind::TraitImpl),
        b'Y' => Some(PathKind::TraitDefinition),
        b'I' => Some(PathKind::Generic),
        b'B' => Some(PathKind::Backref),
        _ => None,
    }
}

/// The kind of a type that is not basic.
#[derive(Clone, Copy)]
pub enum TypeKind {
    SharedReference,
    MutReference,
    Constructed(ConstructedType),
}

/// A type that consists of other types and is not a reference type.
#[derive(Clone, Copy)]
pub enum ConstructedType {
    ConstPointer,
    MutPointer,
    Array,
    Slice,
    Tuple,
    Function,
    Dyn,
    Backref,
    Pattern,
}

/// Returns the kind of the type that begins with a tag. The result is `None` for any other tag,
/// such as that of a basic type or a path.
#[cfg_attr(not(debug_assertions), inline(always))]
pub fn type_kind(tag: u8) -> Option<TypeKind> {
    let constructed = match tag {
        b'R' => return Some(TypeKind::SharedReference),
        b'Q' => return Some(TypeKind::MutReference),
        b'P' => ConstructedType::ConstPointer,
        b'O' => ConstructedType::MutPointer,
        b'A' => ConstructedType::Array,
        b'S' => ConstructedType::Slice,
        b'T' => ConstructedType::Tuple,
        b'F' => ConstructedType::Function,
        b'D' => ConstructedType::Dyn,
        b'B' => ConstructedType::Backref,
        b'W' => ConstructedType::Pattern,
        _ => return None,
    };
    Some(TypeKind::Constructed(constructed))
}

/// The kind of a constant.
#[derive(Clone, Copy)]
pub enum ConstantKind {
    Placeholder,
    Unsigned,
    Signed,
    Bool,
    Char,
    Text,
    Shared,
    Mut,
    Array,
    Tuple,
    Variant,
    Backref,
}

/// Returns the kind of the constant that begins with a tag, or `None` if no constant does.
#[cfg_attr(not(debug_assertions), inline(always))]
pub fn constant_kind(tag: u8) -> Option<ConstantKind> {
    match tag {
        b'p' => Some(ConstantKind::Placeholder),
        b'h' | b't' | b'm' | b'y' | b'o' | b'j' => Some(ConstantKind::Unsigned),
        b'a' | b's' | b'l' | b'x' | b'n' | b'i' => Some(ConstantKind::Signed),
        b'b' => Some(ConstantKind::Bool),
        b'c' => Some(ConstantKind::Char),
        b'e' => Some(ConstantKind::Text),
        b'R' => Some(ConstantKind::Shared),
        b'Q' => Some(ConstantKind::Mut),
        b'A' => Some(ConstantKind::Array),
        b'T' => Some(ConstantKind::Tuple),
        b'V' => Some(ConstantKind::Variant),
        b'B' => Some(ConstantKind::Backref),
        _ => None,
    }
}

/// The kind of a variant, by its fields.
#[derive(Clone, Copy)]
pub enum VariantKind {
    Unit,
    Tuple,
    Fields,
}

/// Returns the kind of a variant by the tag of its fields, or `None` if no fields have this tag.
#[cfg_attr(not(debug_assertions), inline(always))]
pub fn variant_kind(tag: u8) -> Option<VariantKind> {
    match tag {
        b'U' => Some(VariantKind::Unit),
        b'T' => Some(VariantKind::Tuple),
        b'S' => Some(VariantKind::Fields),
        _ => None,
    }
}

/// The kind of a pattern.
#[derive(Clone, Copy)]
pub enum PatternKind {
    Range,
    Or,
    NotNull,
}

/// Returns the kind of the pattern that begins with a tag, or `None` if no pattern does.
#[cfg_attr(not(debug_assertions), inline(always))]
pub fn pattern_kind(tag: u8) -> Option<PatternKind> {
    match tag {
        b'R' => Some(PatternKind::Range),
        b'O' => Some(PatternKind::Or),
        b'N' => Some(PatternKind::NotNull),
        _ => None,
    }
}
