//! The parts of files that depend on the system. Elsewhere than on Unix, a file has no owner, no
//! group and no mode, and no descriptor is that of a standard stream.

pub mod fd {
    use std::fs::File;

    /// A file whose owner can be set.
    pub trait AsFd {
        fn file(&self) -> &File;
    }

    impl AsFd for File {
        fn file(&self) -> &File {
            self
        }
    }

    impl<T: AsFd> AsFd for &T {
        fn file(&self) -> &File {
            (**self).file()
        }
    }

    /// A file whose descriptor can be read.
    pub trait AsRawFd {
        fn as_raw_fd(&self) -> i32;
    }

    impl AsRawFd for File {
        #[cfg(unix)]
        fn as_raw_fd(&self) -> i32 {
            std::os::fd::AsRawFd::as_raw_fd(self)
        }

        #[cfg(not(unix))]
        fn as_raw_fd(&self) -> i32 {
            i32::MAX
        }
    }
}

pub mod unix {
    pub mod fs {
        use super::super::fd::AsFd;
        use crate::support::fs::{OpenOptions, Permissions};
        use std::fs::Metadata;
        use std::io;

        pub trait MetadataExt {
            fn dev(&self) -> u64;

            fn ino(&self) -> u64;

            fn mode(&self) -> u32;

            fn uid(&self) -> u32;

            fn gid(&self) -> u32;
        }

        #[cfg(unix)]
        impl MetadataExt for Metadata {
            fn dev(&self) -> u64 {
                std::os::unix::fs::MetadataExt::dev(self)
            }

            fn ino(&self) -> u64 {
                std::os::unix::fs::MetadataExt::ino(self)
            }

            fn mode(&self) -> u32 {
                std::os::unix::fs::MetadataExt::mode(self)
            }

            fn uid(&self) -> u32 {
                std::os::unix::fs::MetadataExt::uid(self)
            }

            fn gid(&self) -> u32 {
                std::os::unix::fs::MetadataExt::gid(self)
            }
        }

        #[cfg(not(unix))]
        impl MetadataExt for Metadata {
            fn dev(&self) -> u64 {
                0
            }

            fn ino(&self) -> u64 {
                0
            }

            fn mode(&self) -> u32 {
                0
            }

            fn uid(&self) -> u32 {
                0
            }

            fn gid(&self) -> u32 {
                0
            }
        }

        pub trait PermissionsExt {
            fn set_mode(&mut self, mode: u32);
        }

        impl PermissionsExt for Permissions {
            #[cfg(unix)]
            fn set_mode(&mut self, mode: u32) {
                std::os::unix::fs::PermissionsExt::set_mode(self, mode);
            }

            #[cfg(not(unix))]
            fn set_mode(&mut self, _mode: u32) {}
        }

        pub trait OpenOptionsExt {
            fn mode(&mut self, mode: u32) -> &mut Self;
        }

        impl OpenOptionsExt for OpenOptions {
            #[cfg(unix)]
            fn mode(&mut self, mode: u32) -> &mut Self {
                std::os::unix::fs::OpenOptionsExt::mode(&mut self.0, mode);
                self
            }

            #[cfg(not(unix))]
            fn mode(&mut self, _mode: u32) -> &mut Self {
                self
            }
        }

        #[cfg(unix)]
        pub fn fchown(file: impl AsFd, uid: Option<u32>, gid: Option<u32>) -> io::Result<()> {
            std::os::unix::fs::fchown(file.file(), uid, gid)
        }

        #[cfg(not(unix))]
        pub fn fchown(_file: impl AsFd, _uid: Option<u32>, _gid: Option<u32>) -> io::Result<()> {
            Ok(())
        }
    }
}
