//! The file system, as a trait.
use super::alloc::Global;
use super::rt::HostRuntime;
use std::fs;
pub use std::fs::{Metadata, Permissions};
use std::io::{self, Read, Seek, Write};

pub trait Files {
    type File: Read + Write + Seek + OpenFile;

    fn open_file(&self, how: &OpenOptions, path: &str) -> io::Result<Self::File>;

    fn metadata(&self, path: &str) -> io::Result<Metadata>;

    fn symlink_metadata(&self, path: &str) -> io::Result<Metadata>;

    fn rename(&self, from: &str, to: &str) -> io::Result<()>;

    fn remove_file(&self, path: &str) -> io::Result<()>;

    fn read_link(&self, alloc: Global, path: &str) -> io::Result<PathBuf>;
}

pub trait OpenFile {
    fn metadata(&self) -> io::Result<Metadata>;

    fn sync_all(&self) -> io::Result<()>;

    fn set_permissions(&self, permissions: Permissions) -> io::Result<()>;
}

/// A path that is UTF-8.
pub struct PathBuf(std::string::String);

impl PathBuf {
    pub fn as_str(&self) -> &str {
        &self.0
    }
}

impl Files for HostRuntime {
    type File = fs::File;

    fn open_file(&self, how: &OpenOptions, path: &str) -> io::Result<fs::File> {
        how.0.open(path)
    }

    fn metadata(&self, path: &str) -> io::Result<Metadata> {
        fs::metadata(path)
    }

    fn symlink_metadata(&self, path: &str) -> io::Result<Metadata> {
        fs::symlink_metadata(path)
    }

    fn rename(&self, from: &str, to: &str) -> io::Result<()> {
        fs::rename(from, to)
    }

    fn remove_file(&self, path: &str) -> io::Result<()> {
        fs::remove_file(path)
    }

    fn read_link(&self, _alloc: Global, path: &str) -> io::Result<PathBuf> {
        let path = fs::read_link(path)?.into_os_string().into_string();
        Ok(PathBuf(path.map_err(|_| {
            io::Error::from(io::ErrorKind::InvalidData)
        })?))
    }
}

impl OpenFile for fs::File {
    fn metadata(&self) -> io::Result<Metadata> {
        fs::File::metadata(self)
    }

    fn sync_all(&self) -> io::Result<()> {
        fs::File::sync_all(self)
    }

    fn set_permissions(&self, permissions: Permissions) -> io::Result<()> {
        fs::File::set_permissions(self, permissions)
    }
}

pub struct OpenOptions(pub(super) fs::OpenOptions);

impl OpenOptions {
    pub fn new() -> OpenOptions {
        OpenOptions(fs::OpenOptions::new())
    }

    pub fn read(&mut self, read: bool) -> &mut OpenOptions {
        self.0.read(read);
        self
    }

    pub fn write(&mut self, write: bool) -> &mut OpenOptions {
        self.0.write(write);
        self
    }

    pub fn create_new(&mut self, create_new: bool) -> &mut OpenOptions {
        self.0.create_new(create_new);
        self
    }

    pub fn open<F: Files>(&self, files: &F, path: &str) -> io::Result<F::File> {
        files.open_file(self, path)
    }
}

/// The functions of Rust's `File` that open a file.
pub struct File;

impl File {
    pub fn open<F: Files>(files: &F, path: &str) -> io::Result<F::File> {
        OpenOptions::new().read(true).open(files, path)
    }
}
