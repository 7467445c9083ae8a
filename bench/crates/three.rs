//! Calls the erased crate, the published crate or the proved archive with the same symbols.
//!
//! usage: three try|path|text WHICH ROUNDS < LINES, three time ROUNDS < LINES; WHICH is ours, theirs or archive
//!
//! `try` reads each line as a symbol, and `path` prints it with its hash too. `text` demangles all of the input:
//! the crates by their streams, the archive by its call for texts. `time` prints for each WHICH the
//! nanoseconds that `path` takes for a symbol, the least of rounds that alternate.
use std::fmt::Write;
use std::hint::black_box;
use std::io::Read;
use std::time::Instant;

const ROOM: usize = 1 << 26;
const LIMIT: usize = 1_000_000;

unsafe extern "C" {
    // As include/kodliwe.h declares them.
    fn kodliwe_is_symbol(symbol: *const u8, len: usize) -> bool;
    fn kodliwe_demangle(
        symbol: *const u8,
        len: usize,
        out: *mut u8,
        size: usize,
        hash: bool,
    ) -> usize;
    fn kodliwe_demangle_text(
        text: *const u8,
        len: usize,
        out: *mut u8,
        size: usize,
        hash: bool,
        limit: usize,
    ) -> usize;
}

/// A text in memory that is never moved.
struct Room {
    text: String,
    bytes: Vec<u8>,
}

type Path = fn(&str, &mut Room);

macro_rules! path_by {
    ($library:ident) => {
        |symbol, room| {
            room.text.clear();
            if let Ok(name) = $library::try_demangle(symbol) {
                write!(room.text, "{name}").expect("a string takes all");
            }
        }
    };
}

const PATHS: [(&str, Path); 3] = [
    ("ours", path_by!(ours)),
    ("theirs", path_by!(theirs)),
    ("archive", |symbol, room| {
        let (out, size) = (room.bytes.as_mut_ptr(), room.bytes.len());
        unsafe { kodliwe_demangle(symbol.as_ptr(), symbol.len(), out, size, true) };
    }),
];

macro_rules! try_by {
    ($library:ident) => {
        |symbol, _| {
            black_box($library::try_demangle(symbol).is_ok());
        }
    };
}

const TRIES: [(&str, Path); 3] = [
    ("ours", try_by!(ours)),
    ("theirs", try_by!(theirs)),
    ("archive", |symbol, _| {
        black_box(unsafe { kodliwe_is_symbol(symbol.as_ptr(), symbol.len()) });
    }),
];

fn text_by(which: &str, mut text: &[u8], room: &mut Room) {
    let mut output = &mut room.bytes[..];
    match which {
        "ours" => ours::demangle_stream(&mut text, &mut output, true).expect("room"),
        #[cfg(streams)]
        "theirs" => theirs::demangle_stream(&mut text, &mut output, true).expect("room"),
        "archive" => {
            let (out, size) = (output.as_mut_ptr(), output.len());
            unsafe { kodliwe_demangle_text(text.as_ptr(), text.len(), out, size, true, LIMIT) };
        }
        _ => panic!("it has no streams"),
    }
}

fn all(path: Path, symbols: &[&str], room: &mut Room) {
    for symbol in symbols {
        path(black_box(symbol), room);
        black_box(&room);
    }
}

fn times(symbols: &[&str], rounds: usize, room: &mut Room) {
    let mut best = [u128::MAX; PATHS.len()];
    for _ in 0..rounds {
        for (best, (_, path)) in best.iter_mut().zip(PATHS) {
            let began = Instant::now();
            all(path, symbols, room);
            *best = began.elapsed().as_nanos().min(*best);
        }
    }
    for best in best {
        println!("{:.1}", best as f64 / symbols.len() as f64);
    }
}

fn main() {
    let words: Vec<String> = std::env::args().skip(1).collect();
    let rounds = words
        .last()
        .and_then(|word| word.parse().ok())
        .expect("rounds");
    let mut input = String::new();
    std::io::stdin().read_to_string(&mut input).expect("a text");
    let symbols: Vec<&str> = input.lines().collect();
    let mut room = Room {
        text: String::with_capacity(1 << 21),
        bytes: vec![0; ROOM],
    };
    if words[0] == "time" {
        return times(&symbols, rounds, &mut room);
    }
    let jobs = if words[0] == "try" { TRIES } else { PATHS };
    let named = jobs.into_iter().find(|(name, _)| *name == words[1]);
    let (which, path) = named.expect("ours, theirs or archive");
    for _ in 0..rounds {
        match &words[0][..] {
            "try" | "path" => all(path, &symbols, &mut room),
            _ => text_by(which, black_box(input.as_bytes()), &mut room),
        }
    }
}
