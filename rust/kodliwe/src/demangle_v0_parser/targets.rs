// Made from crates/demangle_v0_parser/src/targets.rt by packaging/crate/erase.py: edit that file instead.
//! The productions to which references lead.

use crate::demangle_v0_parser::Continuation;

/// Returns whether the target of a reference is next, whose text may be put again.
#[cfg_attr(not(debug_assertions), inline(always))]
pub fn is_target(continuation: Continuation) -> bool {
    matches!(
        continuation,
        Continuation::TargetPath | Continuation::TargetType | Continuation::TargetConstant
    )
}

/// Returns the continuation at a target, if that of the production is this one.
#[cfg_attr(not(debug_assertions), inline(always))]
pub fn target_of(unit: Continuation) -> Continuation {
    match unit {
        Continuation::Path => Continuation::TargetPath,
        Continuation::Type => Continuation::TargetType,
        Continuation::Constant => Continuation::TargetConstant,
        other => other,
    }
}

/// Returns the continuation that reads and prints a target.
#[cfg_attr(not(debug_assertions), inline(always))]
pub fn unit_of(target: Continuation) -> Continuation {
    match target {
        Continuation::TargetPath => Continuation::Path,
        Continuation::TargetType => Continuation::Type,
        Continuation::TargetConstant => Continuation::Constant,
        other => other,
    }
}

/// Does the same as `unit_of`.
// It is not inlined, so that the loops stay small. They run no target.
#[inline(never)]
pub fn production_of(target: Continuation) -> Continuation {
    unit_of(target)
}
