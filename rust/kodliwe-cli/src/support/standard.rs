//! The standard streams, with each error of the system.
//!
//! Rust's own streams hide one: before `main` it opens the null device in place of a stream that is
//! closed, and its calls succeed if the system says that the descriptor is of no use.

#[cfg(unix)]
pub(super) use unix::{flush, read, write};

#[cfg(not(unix))]
pub(super) use other::{flush, read, write};

#[cfg(unix)]
mod unix {
    use std::fs::File;
    use std::io::{self, Read, Write};
    use std::os::fd::AsFd;
    use std::sync::OnceLock;

    /// POSIX's error for a descriptor that is not open, or is open for the other direction.
    const BAD_DESCRIPTOR: i32 = 9;

    /// Returns another descriptor of a stream, or an error if the stream was closed.
    fn file_of(stream: impl AsFd, number: u8) -> io::Result<File> {
        if super::closed::was_closed(number) {
            return Err(io::Error::from_raw_os_error(BAD_DESCRIPTOR));
        }
        Ok(File::from(stream.as_fd().try_clone_to_owned()?))
    }

    /// Returns the file of a stream, which is made at the first call.
    fn kept(slot: &OnceLock<File>, make: impl FnOnce() -> io::Result<File>) -> io::Result<&File> {
        if slot.get().is_none() {
            let _ = slot.set(make()?);
        }
        slot.get()
            .ok_or_else(|| io::Error::from(io::ErrorKind::Other))
    }

    pub fn read(bytes: &mut [u8]) -> io::Result<usize> {
        static INPUT: OnceLock<File> = OnceLock::new();
        kept(&INPUT, || file_of(io::stdin(), 0))?.read(bytes)
    }

    fn output() -> io::Result<&'static File> {
        static OUTPUT: OnceLock<File> = OnceLock::new();
        kept(&OUTPUT, || file_of(io::stdout(), 1))
    }

    pub fn write(bytes: &[u8]) -> io::Result<usize> {
        output()?.write(bytes)
    }

    pub fn flush() -> io::Result<()> {
        Ok(())
    }
}

#[cfg(not(unix))]
mod other {
    use std::io::{self, Read, Write};

    pub fn read(bytes: &mut [u8]) -> io::Result<usize> {
        io::stdin().read(bytes)
    }

    pub fn write(bytes: &[u8]) -> io::Result<usize> {
        io::stdout().write(bytes)
    }

    pub fn flush() -> io::Result<()> {
        io::stdout().flush()
    }
}

/// Which standard streams were closed when the program was started.
#[cfg(unix)]
#[allow(unsafe_code)]
mod closed {
    use std::sync::atomic::{AtomicU8, Ordering};

    /// The bit of each stream that was closed.
    static CLOSED: AtomicU8 = AtomicU8::new(0);

    /// The command of `fcntl` that reads the flags of a descriptor.
    const F_GETFD: i32 = 1;

    unsafe extern "C" {
        fn fcntl(descriptor: i32, command: i32, ...) -> i32;
    }

    extern "C" fn look() {
        for number in 0..3 {
            // SAFETY: this command needs no further argument, and takes any number.
            let flags = unsafe { fcntl(number, F_GETFD) };
            if flags == -1 {
                CLOSED.fetch_or(1 << number, Ordering::Relaxed);
            }
        }
    }

    // SAFETY: the loader calls each function of this section before `main`. `look` uses nothing
    // that has to be set up before.
    #[cfg_attr(
        target_vendor = "apple",
        unsafe(link_section = "__DATA,__mod_init_func")
    )]
    #[cfg_attr(not(target_vendor = "apple"), unsafe(link_section = ".init_array"))]
    static LOOK: extern "C" fn() = look;

    pub fn was_closed(number: u8) -> bool {
        std::hint::black_box(&LOOK);
        CLOSED.load(Ordering::Relaxed) & (1 << number) != 0
    }
}
