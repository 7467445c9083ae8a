//! Calls the library for C and the Rust crate with the same symbols. usage: rust_calls both|kodliwe|crate TURNS < RECORDS
//!
//! A record is that of answers.c: 4 bytes of the symbol's length, 8 that are skipped, the symbol. `both` compares the paths with the
//! hash and without it, prints a line for each that differs, and then how many it compared. The others print with the hash.
use std::fmt::Write;
use std::hint::black_box;
use std::io::Read;

const ROOM: usize = 1 << 21;

/// A text into bytes, as the crate's interface for C writes it.
struct Bytes<'b> {
    out: &'b mut [u8],
    len: usize,
}

impl Write for Bytes<'_> {
    fn write_str(&mut self, s: &str) -> std::fmt::Result {
        let to = self
            .out
            .get_mut(self.len..self.len + s.len())
            .ok_or(std::fmt::Error)?;
        to.copy_from_slice(s.as_bytes());
        self.len += s.len();
        Ok(())
    }
}

unsafe extern "C" {
    // As include/kodliwe.h declares it.
    fn kodliwe_demangle(
        symbol: *const u8,
        symbol_len: usize,
        path: *mut u8,
        path_size: usize,
        include_hash: bool,
    ) -> usize;
}

#[inline(never)]
fn by_kodliwe(symbol: &[u8], out: &mut [u8], hash: bool) -> Option<usize> {
    let len = unsafe {
        kodliwe_demangle(
            symbol.as_ptr(),
            symbol.len(),
            out.as_mut_ptr(),
            out.len(),
            hash,
        )
    };
    (len != 0).then_some(len)
}

#[inline(never)]
fn by_crate(symbol: &[u8], out: &mut [u8], hash: bool) -> Option<usize> {
    let symbol = std::str::from_utf8(symbol).ok()?;
    let symbol = rustc_demangle::try_demangle(symbol).ok()?;
    let mut to = Bytes { out, len: 0 };
    if hash {
        write!(to, "{symbol}\0")
    } else {
        write!(to, "{symbol:#}\0")
    }
    .ok()?;
    Some(to.len)
}

fn main() {
    let mut args = std::env::args().skip(1);
    let which = args.next().expect("both, kodliwe or crate");
    let turns: usize = args.next().expect("turns").parse().expect("a number");
    let mut input = Vec::new();
    std::io::stdin().read_to_end(&mut input).expect("records");
    let (mut symbols, mut rest) = (vec![], &input[..]);
    while rest.len() >= 12 {
        let len = u32::from_le_bytes(rest[..4].try_into().unwrap()) as usize;
        symbols.push(&rest[12..12 + len]);
        rest = &rest[12 + len..];
    }
    let (mut ours, mut theirs) = (vec![0; ROOM], vec![0; ROOM]);
    let mut compared = 0;
    for _ in 0..turns {
        for symbol in &symbols {
            for hash in [true, false] {
                match &which[..] {
                    "kodliwe" if hash => {
                        drop(black_box(by_kodliwe(black_box(symbol), &mut ours, hash)))
                    }
                    "crate" if hash => {
                        drop(black_box(by_crate(black_box(symbol), &mut ours, hash)))
                    }
                    "both" => {
                        compared += 1;
                        let (a, b) = (
                            by_kodliwe(symbol, &mut ours, hash),
                            by_crate(symbol, &mut theirs, hash),
                        );
                        if a != b || a.is_some_and(|n| ours[..n] != theirs[..n]) {
                            let hex: String =
                                symbol.iter().map(|byte| format!("{byte:02x}")).collect();
                            let form = if hash { "with" } else { "without" };
                            println!("differs {form} the hash: {hex}");
                        }
                    }
                    _ => {}
                }
            }
        }
    }
    if which == "both" {
        println!("compared {compared}");
    }
}
