//! Calls the published crate and the drop-in with the same symbols.
//!
//! usage: calls answers < RECORDS, calls stream HASH < TEXT, calls time ROUNDS < LINES, calls count WHICH ROUNDS < LINES
//!
//! A record is 4 bytes of a text's length and the text. For each record and each crate, `answers` writes whether it is a
//! symbol, the result of `as_str`, and the two printed forms, each after its length. `stream` writes the text as each
//! crate copies it, after its length. `time` prints nanoseconds a symbol, the least of rounds in which the crates
//! alternate. `count` runs one crate.
use std::fmt::Write as _;
use std::hint::black_box;
use std::io::{Read, Write};
use std::time::Instant;

macro_rules! answers_of {
    ($library:ident, $text:expr, $to:expr) => {{
        let name = $library::demangle($text);
        put($to, &[u8::from($library::try_demangle($text).is_ok())]);
        put($to, name.as_str().as_bytes());
        put($to, format!("{name}").as_bytes());
        put($to, format!("{name:#}").as_bytes());
    }};
}

macro_rules! streamed_by {
    ($library:ident, $text:expr, $hash:expr) => {{
        let mut output = Vec::new();
        $library::demangle_stream(&mut $text, &mut output, $hash).expect("a vector takes all");
        output
    }};
}

macro_rules! path_by {
    ($library:ident) => {
        |symbol, out| {
            if let Ok(name) = $library::try_demangle(symbol) {
                write!(out, "{name}").expect("a string takes all");
            }
        }
    };
}

macro_rules! asked_by {
    ($library:ident) => {
        |symbol, _| {
            black_box($library::try_demangle(symbol).is_ok());
        }
    };
}

type Job = fn(&str, &mut String);
const JOBS: [(&str, Job); 4] = [
    ("path ours", path_by!(ours)),
    ("path theirs", path_by!(theirs)),
    ("try ours", asked_by!(ours)),
    ("try theirs", asked_by!(theirs)),
];

fn put(to: &mut Vec<u8>, bytes: &[u8]) {
    to.extend_from_slice(&(bytes.len() as u32).to_le_bytes());
    to.extend_from_slice(bytes);
}

fn answers(input: &[u8], to: &mut Vec<u8>) {
    let mut rest = input;
    while let Some((len, behind)) = rest.split_first_chunk() {
        let (text, behind) = behind.split_at(u32::from_le_bytes(*len) as usize);
        let text = std::str::from_utf8(text).expect("text");
        answers_of!(ours, text, to);
        answers_of!(theirs, text, to);
        rest = behind;
    }
}

fn run(job: Job, symbols: &[&str], out: &mut String) {
    for symbol in symbols {
        out.clear();
        job(black_box(symbol), out);
        black_box(&out);
    }
}

fn times(symbols: &[&str], rounds: usize, out: &mut String) {
    let mut best = [u128::MAX; JOBS.len()];
    for _ in 0..rounds {
        for (best, (_, job)) in best.iter_mut().zip(JOBS) {
            let began = Instant::now();
            run(job, symbols, out);
            *best = began.elapsed().as_nanos().min(*best);
        }
    }
    for (best, (name, _)) in best.iter().zip(JOBS) {
        println!("{name}: {:.1}", *best as f64 / symbols.len() as f64);
    }
}

fn main() {
    let words: Vec<String> = std::env::args().skip(1).collect();
    let mut input = Vec::new();
    std::io::stdin()
        .read_to_end(&mut input)
        .expect("standard input");
    let mut to = Vec::new();
    let mut out = String::with_capacity(1 << 21);
    let symbols = || -> Vec<&str> { std::str::from_utf8(&input).expect("text").lines().collect() };
    match words.iter().map(String::as_str).collect::<Vec<_>>()[..] {
        ["answers"] => answers(&input, &mut to),
        ["stream", hash] => {
            put(&mut to, &streamed_by!(ours, &input[..], hash == "true"));
            put(&mut to, &streamed_by!(theirs, &input[..], hash == "true"));
        }
        ["stream-ours"] => put(&mut to, &streamed_by!(ours, &input[..], true)),
        ["time", rounds] => times(&symbols(), rounds.parse().expect("a number"), &mut out),
        ["count", which, rounds] => {
            let (_, job) = JOBS
                .into_iter()
                .find(|(name, _)| *name == which)
                .expect("a job");
            let symbols = symbols();
            for _ in 0..rounds.parse().expect("a number") {
                run(job, &symbols, &mut out);
            }
        }
        _ => panic!("see the usage in the source"),
    }
    std::io::stdout().write_all(&to).expect("standard output");
}
