// Made from crates/kodliwe_program/src/same_file.rt by packaging/crate/erase.py: edit that file instead.
//! Finds an input that is the file to which standard output writes.
use crate::kodliwe_program::arguments::InputSource;
use crate::kodliwe_program::inputs::STDIN_NAME;
use crate::support::fs::Files;
use crate::support::os::unix::fs::MetadataExt;

/// The identity of a file, whatever its names are.
#[derive(Clone, Copy)]
struct FileId {
    device: u64,
    inode: u64,
}

/// Returns the regular file to which a path leads. Returns `None` if it leads to something else, or
/// if the system does not identify it.
fn regular_file<F: Files>(files: &F, path: &str) -> Option<FileId> {
    match files.metadata(path) {
        Ok(found) if found.is_file() && found.ino() != 0 => Some(FileId {
            device: found.dev(),
            inode: found.ino(),
        }),
        _ => None,
    }
}

/// Returns whether the file at a path is this one.
fn is_same<F: Files>(files: &F, path: &str, output: FileId) -> bool {
    match regular_file(files, path) {
        Some(input) => input.device == output.device && input.inode == output.inode,
        None => false,
    }
}

/// Returns the name of the first source that is the regular file to which standard output writes.
pub fn input_that_is_output<'a, F: Files>(
    files: &F,
    sources: &[InputSource<'a>],
) -> Option<&'a str> {
    let output = regular_file(files, "/dev/stdout")?;
    for source in sources {
        let (path, name) = match source {
            InputSource::Stdin => ("/dev/stdin", STDIN_NAME),
            InputSource::File(path) => (*path, *path),
            InputSource::Symbol(_) => continue,
        };
        if is_same(files, path, output) {
            return Some(name);
        }
    }
    None
}
