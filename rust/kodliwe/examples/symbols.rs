//! Lists a symbol table with the paths of its Rust symbols.
//!
//! Reads lines of `nm`, whose last word is a symbol, and writes only those that name Rust items:
//!
//!     nm target/debug/program | cargo run --example symbols
use kodliwe::try_demangle;
use std::io::{self, BufRead, Write};

fn main() -> io::Result<()> {
    let mut output = io::BufWriter::new(io::stdout().lock());
    for line in io::stdin().lock().lines() {
        let line = line?;
        let (rest, symbol) = line.rsplit_once(' ').unwrap_or(("", &line));
        if let Ok(path) = try_demangle(symbol) {
            writeln!(output, "{rest} {path:#}")?;
        }
    }
    output.flush()
}
