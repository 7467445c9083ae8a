// Made from crates/demangle_v0_parser/src/asides.rt by packaging/crate/erase.py: edit that file instead.
//! The continuations that the loop of printing does not run.

use crate::demangle_symbol::form::Form;
use crate::demangle_v0_parser::Continuation;
use crate::demangle_v0_parser::targets::is_target;

/// Returns whether the loop of printing does not run this continuation.
// It is not inlined, so that the loop has one test for the seven continuations.
#[inline(never)]
fn is_left_out(continuation: Continuation, form: Form) -> bool {
    match continuation {
        Continuation::InherentImplPath | Continuation::TraitImplPath => true,
        Continuation::FirstArgument | Continuation::FirstTraitArgument => form.fold_arguments,
        _ => is_target(continuation),
    }
}

/// Returns whether the loop of printing does not run this continuation. Then a part that is not
/// printed is next, an impl path or folded arguments, or a target whose text may be put again.
#[cfg_attr(not(debug_assertions), inline(always))]
pub fn is_aside(continuation: Continuation, form: Form) -> bool {
    match continuation {
        Continuation::InherentImplPath
        | Continuation::TraitImplPath
        | Continuation::FirstArgument
        | Continuation::FirstTraitArgument
        | Continuation::TargetPath
        | Continuation::TargetType
        | Continuation::TargetConstant => is_left_out(continuation, form),
        _ => false,
    }
}
