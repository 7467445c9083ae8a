// Made from crates/kodliwe_program/src/program/output.rt by packaging/crate/erase.py: edit that file instead.
//! Filters the inputs into the output that the arguments name.
use crate::kodliwe_program::coalescing::CoalescingOutput;
use crate::kodliwe_program::error::OUT_OF_MEMORY;
use crate::kodliwe_program::filtering::{BUFFER, FilterOutcome, Part, Settings, filter_all};
use crate::kodliwe_program::inputs::{LineReader, SourceReader};
use crate::kodliwe_program::replacement::open_output;
use crate::support::fs::Files;
use crate::support::io::BufWriter;
use crate::support::os::fd::AsFd;
use crate::support::vec::Vec;
use std::io::Write;

/// The parts of the output that the arguments request.
pub(super) type SourceParts<'a, F> = Vec<Part<'a, LineReader<SourceReader<'a, F>>>>;

/// The parts to write, and how.
pub(super) struct Filtering<'a, F: Files> {
    pub(super) files: &'a F,
    pub(super) parts: SourceParts<'a, F>,
    pub(super) settings: Settings,
}

impl<F: Files> Filtering<'_, F>
where
    F::File: AsFd,
{
    /// Filters into a writer, and returns how that ended.
    fn filter_into<W: Write, E: Write>(self, writer: W, errors: &mut E) -> FilterOutcome {
        let Filtering {
            files: _,
            parts,
            settings,
        } = self;
        let Ok(buffer) = BufWriter::with_capacity(settings.alloc, BUFFER, writer) else {
            let _ = errors.write_all(OUT_OF_MEMORY.as_bytes());
            return FilterOutcome::WriteFailed;
        };
        let mut output = CoalescingOutput::new(buffer);
        filter_all(settings, parts, &mut output, errors)
    }

    /// Filters into a writer, and returns the exit status.
    pub(super) fn write_to<W: Write, E: Write>(self, writer: W, errors: &mut E) -> u8 {
        self.filter_into(writer, errors).status()
    }

    /// Filters into the file that a path names, and returns the exit status. A file without a name
    /// becomes the file of its replacement when it is complete.
    pub(super) fn write_file<E: Write>(self, path: &str, errors: &mut E) -> u8 {
        let (alloc, files) = (self.settings.alloc, self.files);
        let (mut file, replacement) = match open_output(alloc, files, path) {
            Ok(opened) => opened,
            Err(error) => {
                error.report(alloc, errors);
                return 1;
            }
        };
        let ended = self.filter_into(&mut file, errors);
        if ended != FilterOutcome::Complete {
            return ended.status();
        }
        let Some(replacement) = replacement else {
            return 0;
        };
        match replacement.finish(alloc, files, &mut file) {
            Ok(()) => 0,
            Err(error) => {
                error.report(alloc, errors);
                1
            }
        }
    }
}
