// Made from crates/kodliwe_program/src/replacement.rt by packaging/crate/erase.py: edit that file instead.
//! Writes a file completely or not at all.
//!
//! While a file is written, it has no name, so nothing of it is left when the program ends, whatever
//! ends it. When it is complete, it is copied into a file with a temporary name, which is renamed.

use crate::kodliwe_program::error::{OUT_OF_MEMORY, report_call};
use crate::support::alloc::{AllocError, Global};
use crate::support::format;
use crate::support::fs::{Files, Metadata, OpenFile, OpenOptions};
use crate::support::os::fd::AsFd;
use crate::support::os::unix::fs::{MetadataExt, OpenOptionsExt, PermissionsExt, fchown};
use crate::support::string::String;
use std::io;
use std::io::{ErrorKind, Seek, Write};

/// The permission bits of a mode. The other bits are set-uid, set-gid, sticky and the type.
const PERMISSIONS: u32 = 0o777;
/// The mode of a file that no other user may open.
const PRIVATE: u32 = 0o600;
/// The mode of a new file, before the system narrows it by the umask.
const SHARED: u32 = 0o666;
/// The largest number of a temporary name.
const LAST_NUMBER: u32 = 999_999;
/// The most links that are followed, one after the other. Linux follows as many.
const MOST_LINKS: u32 = 40;

/// Why an output was not written.
pub enum OutputError {
    /// A call failed on the file or the folder of this name.
    Call(String, io::Error),
    /// Memory can't be allocated.
    Memory,
}

impl From<AllocError> for OutputError {
    fn from(_error: AllocError) -> OutputError {
        OutputError::Memory
    }
}

impl OutputError {
    /// Returns the error of a call on the file or the folder of this name.
    fn of_call(alloc: Global, name: &str, error: io::Error) -> OutputError {
        match String::from_str(alloc, name) {
            Ok(name) => OutputError::Call(name, error),
            Err(_) => OutputError::Memory,
        }
    }

    /// Returns the error of a call that looks for the file at a path, or creates it. It names the
    /// folder if that can't be used.
    fn in_folder(alloc: Global, path: &str, error: io::Error) -> OutputError {
        let is_in_folder = matches!(
            error.kind(),
            ErrorKind::NotFound
                | ErrorKind::NotADirectory
                | ErrorKind::PermissionDenied
                | ErrorKind::ReadOnlyFilesystem
        );
        let name = if is_in_folder { folder_of(path) } else { path };
        OutputError::of_call(alloc, name, error)
    }

    /// Writes the line for the error. An error of `errors` is ignored.
    pub fn report<E: Write>(&self, alloc: Global, errors: &mut E) {
        match self {
            OutputError::Call(name, error) => report_call(alloc, errors, name.as_str(), error),
            OutputError::Memory => {
                let _ = errors.write_all(OUT_OF_MEMORY.as_bytes());
            }
        }
    }
}

/// Returns the folder that a path names a file in.
fn folder_of(path: &str) -> &str {
    match path.rsplit_once('/') {
        Some(("", _)) => "/",
        Some((folder, _)) => folder,
        None => ".",
    }
}

/// Gives a file the owner and the group of another one, or the group alone if the system does not
/// allow the owner. Fails if the file's own owner and group can't be read.
fn take_owner<F: OpenFile + AsFd>(file: &F, old: &Metadata) -> io::Result<()> {
    let own = file.metadata()?;
    if own.uid() == old.uid() && own.gid() == old.gid() {
        return Ok(());
    }
    if fchown(file, Some(old.uid()), Some(old.gid())).is_err() {
        let _ = fchown(file, None, Some(old.gid()));
    }
    Ok(())
}

/// Returns the permissions of a file that replaces one with this mode. If the group is another one,
/// the group and all others may do what both could do before. The bits of set-uid, set-gid and
/// sticky are left out.
fn kept_permissions(mode: u32, keeps_group: bool) -> u32 {
    if keeps_group {
        return mode & PERMISSIONS;
    }
    let shared = (mode >> 3) & mode & 0o7;
    (mode & 0o700 | shared << 3 | shared) & PERMISSIONS
}

/// Gives a file the permissions of another one, as far as its group allows. Fails if the file's own
/// group can't be read or the permissions can't be set.
fn take_permissions<F: OpenFile>(file: &F, old: &Metadata) -> io::Result<()> {
    let keeps_group = file.metadata()?.gid() == old.gid();
    let mut permissions = old.permissions();
    permissions.set_mode(kept_permissions(old.mode(), keeps_group));
    file.set_permissions(permissions)
}

/// Creates a file with this name, and returns both. Fails if a file has that name, if the file can't
/// be created, or if memory can't be allocated.
fn create_named<F: Files>(
    alloc: Global,
    files: &F,
    mode: u32,
    name: String,
) -> Result<(F::File, String), OutputError> {
    let mut options = OpenOptions::new();
    options.read(true).write(true).create_new(true);
    options.mode(mode);
    match options.open(files, name.as_str()) {
        Ok(file) => Ok((file, name)),
        Err(error) => Err(OutputError::in_folder(alloc, name.as_str(), error)),
    }
}

/// Returns whether a file was not created because its name is taken.
fn is_taken<T>(created: &Result<T, OutputError>) -> bool {
    match created {
        Err(OutputError::Call(_, error)) => error.kind() == ErrorKind::AlreadyExists,
        _ => false,
    }
}

/// Creates a file next to `path`, with the first temporary name that no file has, and returns both.
/// Fails if a file has each of these names, and otherwise as `create_named` does.
fn create_next_to<F: Files>(
    alloc: Global,
    files: &F,
    path: &str,
    mode: u32,
) -> Result<(F::File, String), OutputError> {
    for number in 0..LAST_NUMBER {
        let name = format!(in alloc; "{path}.kodliwe-{number}")?;
        let created = create_named(alloc, files, mode, name);
        if !is_taken(&created) {
            return created;
        }
    }
    let name = format!(in alloc; "{path}.kodliwe-{LAST_NUMBER}")?;
    create_named(alloc, files, mode, name)
}

/// Creates a file in the folder of `path`, and removes its name. Only its owner may open it before
/// that. Fails as `create_next_to` does, or if the name can't be removed.
fn create_unnamed<F: Files>(alloc: Global, files: &F, path: &str) -> Result<F::File, OutputError> {
    let (file, name) = create_next_to(alloc, files, path, PRIVATE)?;
    match files.remove_file(name.as_str()) {
        Ok(()) => Ok(file),
        Err(error) => Err(OutputError::Call(name, error)),
    }
}

/// The path of an output, and the file there that is replaced, if there is one.
pub struct Replacement {
    path: String,
    old: Option<Metadata>,
}

impl Replacement {
    /// Copies the complete text into the file with this name, gives that the owner, the group and
    /// the permissions of the one that it replaces, and then its name. Fails if one of that fails.
    fn fill<F: Files>(
        &self,
        files: &F,
        text: &mut F::File,
        file: &mut F::File,
        name: &str,
    ) -> io::Result<()>
    where
        F::File: AsFd,
    {
        text.rewind()?;
        io::copy(text, file)?;
        if let Some(old) = &self.old {
            take_owner(file, old)?;
            take_permissions(file, old)?;
        }
        file.sync_all()?;
        files.rename(name, self.path.as_str())
    }

    /// Makes the complete text, which is in a file without a name, the file at the path. Only its
    /// owner may open a file that replaces one before it is complete. After an error, no new file is
    /// there, and the old one is unchanged.
    ///
    /// Fails if the file can't be created, written, synchronized or renamed, if its permissions can't
    /// be set, or if memory can't be allocated.
    pub fn finish<F: Files>(
        &self,
        alloc: Global,
        files: &F,
        text: &mut F::File,
    ) -> Result<(), OutputError>
    where
        F::File: AsFd,
    {
        let mode = if self.old.is_some() { PRIVATE } else { SHARED };
        let (mut file, name) = create_next_to(alloc, files, self.path.as_str(), mode)?;
        match self.fill(files, text, &mut file, name.as_str()) {
            Ok(()) => Ok(()),
            Err(error) => {
                let _ = files.remove_file(name.as_str());
                Err(OutputError::of_call(alloc, self.path.as_str(), error))
            }
        }
    }
}

/// Returns the path of what a link at a path leads to. Fails if memory can't be allocated.
fn target_path(alloc: Global, link: &str, target: &str) -> Result<String, AllocError> {
    match link.rsplit_once('/') {
        Some((folder, _)) if !target.starts_with('/') => format!(in alloc; "{folder}/{target}"),
        _ => String::from_str(alloc, target),
    }
}

/// Returns the path to which a link at a path leads, also over other links, whether a file is there
/// or not. Returns any other path unchanged. Fails if a link can't be read, or if memory can't be
/// allocated.
fn followed<F: Files>(alloc: Global, files: &F, path: &str) -> Result<String, OutputError> {
    let mut path = String::from_str(alloc, path)?;
    for _ in 0..MOST_LINKS {
        match files.symlink_metadata(path.as_str()) {
            Ok(found) if found.is_symlink() => {}
            Ok(_) => return Ok(path),
            Err(error) if error.kind() == ErrorKind::NotFound => return Ok(path),
            Err(error) => return Err(OutputError::in_folder(alloc, path.as_str(), error)),
        }
        path = match files.read_link(alloc, path.as_str()) {
            Ok(target) => target_path(alloc, path.as_str(), target.as_str())?,
            Err(error) => return Err(OutputError::of_call(alloc, path.as_str(), error)),
        };
    }
    Ok(path)
}

/// Fails if the file at the path to which links lead is not the one that the system found by them.
fn check_followed<F: Files>(
    alloc: Global,
    files: &F,
    path: &str,
    old: Option<&Metadata>,
) -> Result<(), OutputError> {
    let error = match (files.symlink_metadata(path), old) {
        (Ok(found), Some(old)) if found.dev() == old.dev() && found.ino() == old.ino() => {
            return Ok(());
        }
        (Err(error), None) if error.kind() == ErrorKind::NotFound => return Ok(()),
        (Ok(_), _) => io::Error::other("a link to it has changed"),
        (Err(error), _) => error,
    };
    Err(OutputError::of_call(alloc, path, error))
}

/// Returns why the system can't look for the file at a path. If links lead there, the error is that
/// of the link which can't be followed.
fn lookup_error<F: Files>(alloc: Global, files: &F, path: &str, error: io::Error) -> OutputError {
    match followed(alloc, files, path) {
        Err(fault) => fault,
        Ok(target) if target.as_str() == path => OutputError::in_folder(alloc, path, error),
        Ok(_) => OutputError::of_call(alloc, path, error),
    }
}

/// Opens the output file for a path. Returns the file, and the replacement to finish when the file
/// is complete.
///
/// If a regular file or nothing is at the path, creates a file without a name in its folder. Links
/// are followed, also one that leads to nothing. Opens anything else, such as a device or a pipe,
/// itself, and returns no replacement. Fails if the file can't be written, if its folder can't be
/// used, or if memory can't be allocated.
pub fn open_output<F: Files>(
    alloc: Global,
    files: &F,
    path: &str,
) -> Result<(F::File, Option<Replacement>), OutputError> {
    // The system may not allow to follow a link of another user. So it is asked after the links
    // were read: a link that is placed between both calls is not followed.
    let target = followed(alloc, files, path);
    if matches!(&target, Err(OutputError::Memory)) {
        return Err(OutputError::Memory);
    }
    let old = match files.metadata(path) {
        Ok(old) => Some(old),
        Err(error) if error.kind() == ErrorKind::NotFound => None,
        Err(error) => return Err(lookup_error(alloc, files, path, error)),
    };
    if let Some(old) = &old {
        // A file that can't be written is not replaced either.
        let file = match OpenOptions::new().write(true).open(files, path) {
            Ok(file) => file,
            Err(error) => return Err(OutputError::of_call(alloc, path, error)),
        };
        if !old.is_file() {
            return Ok((file, None));
        }
    }
    let target = target?;
    if target.as_str() != path {
        check_followed(alloc, files, target.as_str(), old.as_ref())?;
    }
    let file = create_unnamed(alloc, files, target.as_str())?;
    let replacement = Replacement { path: target, old };
    Ok((file, Some(replacement)))
}
