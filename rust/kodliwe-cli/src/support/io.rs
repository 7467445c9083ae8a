//! Buffers that are passed the allocator, and standard input as a value.
use super::alloc::{Allocator, Global};
use super::rt::HostRuntime;
use super::standard;
use std::io::{self, BufRead, Read, Write};
use std::marker::PhantomData;

/// Rust's buffered reader.
pub struct BufReader<R: Read, A: Allocator = Global>(io::BufReader<R>, PhantomData<A>);

impl<R: Read, A: Allocator> BufReader<R, A> {
    pub fn new(alloc: A, reader: R) -> io::Result<Self> {
        BufReader::with_capacity(alloc, 8192, reader)
    }

    pub fn with_capacity(_alloc: A, capacity: usize, reader: R) -> io::Result<Self> {
        Ok(BufReader(
            io::BufReader::with_capacity(capacity, reader),
            PhantomData,
        ))
    }

    pub fn buffer(&self) -> &[u8] {
        self.0.buffer()
    }
}

impl<R: Read, A: Allocator> Read for BufReader<R, A> {
    fn read(&mut self, bytes: &mut [u8]) -> io::Result<usize> {
        self.0.read(bytes)
    }
}

impl<R: Read, A: Allocator> BufRead for BufReader<R, A> {
    fn fill_buf(&mut self) -> io::Result<&[u8]> {
        self.0.fill_buf()
    }

    fn consume(&mut self, count: usize) {
        self.0.consume(count);
    }
}

/// Rust's buffered writer.
pub struct BufWriter<W: Write>(io::BufWriter<W>);

impl<W: Write> BufWriter<W> {
    pub fn new(alloc: Global, writer: W) -> io::Result<Self> {
        BufWriter::with_capacity(alloc, 8192, writer)
    }

    pub fn with_capacity(_alloc: Global, capacity: usize, writer: W) -> io::Result<Self> {
        Ok(BufWriter(io::BufWriter::with_capacity(capacity, writer)))
    }
}

impl<W: Write> Write for BufWriter<W> {
    fn write(&mut self, bytes: &[u8]) -> io::Result<usize> {
        self.0.write(bytes)
    }

    fn flush(&mut self) -> io::Result<()> {
        self.0.flush()
    }
}

/// Standard input.
#[derive(Clone, Copy)]
pub struct Stdin;

impl Stdin {
    pub fn lock(self) -> Stdin {
        self
    }
}

/// Whether a stream is a terminal. Rust's own trait cannot be implemented for other types.
pub trait IsTerminal {
    fn is_terminal(&self) -> bool;
}

impl IsTerminal for Stdin {
    fn is_terminal(&self) -> bool {
        io::IsTerminal::is_terminal(&io::stdin())
    }
}

impl Read for Stdin {
    fn read(&mut self, bytes: &mut [u8]) -> io::Result<usize> {
        standard::read(bytes)
    }
}

/// Standard output. It has no buffer.
#[derive(Clone, Copy)]
pub struct Stdout;

impl Stdout {
    pub fn lock(self) -> Stdout {
        self
    }
}

impl Write for Stdout {
    fn write(&mut self, bytes: &[u8]) -> io::Result<usize> {
        standard::write(bytes)
    }

    fn flush(&mut self) -> io::Result<()> {
        standard::flush()
    }
}

/// The standard streams.
impl HostRuntime {
    pub fn stdin(&self) -> Stdin {
        Stdin
    }

    pub fn stdout(&self) -> Stdout {
        Stdout
    }

    pub fn stderr(&self) -> io::Stderr {
        io::stderr()
    }
}
