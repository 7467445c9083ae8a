// Made from crates/demangle_v0_parser/src/paths.rt by packaging/crate/erase.py: edit that file instead.
//! Continuations of paths.

use crate::demangle_v0_parser::parse::Parser;
use crate::demangle_v0_parser::{Continuation, StepError};
use crate::demangle_v0_tokens::fixed_texts::FixedText;
use crate::demangle_v0_tokens::output::Output;
use crate::demangle_v0_tokens::tags::{PathKind, path_kind};

impl Parser<'_, '_> {
    /// Starts the path that has generic arguments, after its `I`.
    #[cfg_attr(not(debug_assertions), inline(always))]
    fn generic_path(&mut self) -> Continuation {
        self.push(Continuation::Generic);
        Continuation::Path
    }

    /// Starts a path after its tag, which is not that of a nested path. It fails if no path has this
    /// tag.
    #[cfg_attr(not(debug_assertions), inline(always))]
    fn tagged_path<V: Output>(
        &mut self,
        tag: u8,
        output: &mut V,
    ) -> Result<Continuation, StepError> {
        let kind = path_kind(tag).ok_or(StepError::Abort(FixedText::Invalid))?;
        match kind {
            PathKind::CrateRoot => self.crate_name(output),
            // `path` reads nested paths itself.
            PathKind::NestedName => Ok(Continuation::Path),
            PathKind::Generic => Ok(self.generic_path()),
            PathKind::Backref => self.follow_backref(Continuation::Path, output),
            PathKind::InherentImpl => self.impl_disambiguator(false),
            PathKind::TraitImpl => self.impl_disambiguator(true),
            PathKind::TraitDefinition => Ok(self.self_type(true)),
        }
    }

    /// Reads the tag of a path, and starts the path one level deeper.
    ///
    /// The tags of paths that are nested in one another are read together, up to a namespace in upper
    /// case or until the stack is nearly full. If they end at a crate, the names are read and printed
    /// after its own, and without output also after a back reference. Otherwise a frame is pushed for
    /// each of them.
    ///
    /// Fails if a part that it reads has an error, if the depth is used up, or if the output rejects
    /// a piece.
    // Most paths are nested in two or three others, and their names need no steps of their own.
    #[cfg_attr(not(debug_assertions), inline(always))]
    pub(super) fn path<V: Output>(&mut self, output: &mut V) -> Result<Continuation, StepError> {
        let mut at = self.state.place_or_abort()?;
        let outer = self.state.depth_left;
        let mut count: u16 = 0;
        // The depth is tested before the tag here, and after it for a type or a constant. The Rust
        // crate reports errors in this order.
        while count < outer {
            let left = outer - count - 1;
            let Ok((tag, next)) = self.source.symbol.tag(at) else {
                self.push_names(count, outer);
                return Err(StepError::Abort(FixedText::Invalid));
            };
            if tag != b'N' {
                self.state.depth_left = left;
                self.state.place = Some(next);
                if tag == b'C' {
                    let performed = self.crate_name(output);
                    if count == 0 {
                        return performed;
                    }
                    return self.names_after(performed, count, outer, output);
                }
                if (tag == b'B') & (count > 0) & !output.is_printing() {
                    let performed = self.follow_backref(Continuation::Path, output);
                    return self.names_after(performed, count, outer, output);
                }
                self.push_names(count, outer);
                return self.tagged_path(tag, output);
            }
            let Ok((letter, after)) = self.source.symbol.namespace(next) else {
                self.push_names(count, outer);
                return Err(StepError::Abort(FixedText::Invalid));
            };
            if letter.is_ascii_uppercase() | (self.stack.room_left() <= usize::from(count) + 1) {
                self.push_names(count, outer);
                self.state.depth_left = left;
                self.state.place = Some(after);
                self.push_lettered(Continuation::NestedName, letter);
                return Ok(Continuation::Path);
            }
            count += 1;
            at = after;
        }
        self.push_names(count, outer);
        Err(StepError::Abort(FixedText::Recursion))
    }
}
