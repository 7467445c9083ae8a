//! Makes one call for each text of standard input, by the library or by the published crate.
//!
//! usage: hostile CALL < RECORDS
//!
//! A record is 4 bytes of a text's length and the text. It prints the number of bytes of each output.
//! `measured` makes the calls, so that callgrind can count them alone.
use kodliwe::{BytesFilter, Format, SinkRefused, TextSink, MAX_SIZE};
use std::fmt::Write as _;
use std::io::Read;

/// The room for an output.
const SIZE: usize = 16 << 20;

/// The output of a call, in memory that is never moved.
struct Room {
    text: String,
    bytes: Vec<u8>,
    slice: Vec<u8>,
}

impl TextSink for Room {
    fn put(&mut self, piece: &str) -> Result<(), SinkRefused> {
        self.text.push_str(piece);
        Ok(())
    }

    fn is_failed(&self) -> bool {
        false
    }
}

/// Returns the candidates of a text and the parts between them, as a filter finds them.
fn parts(text: &str) -> impl Iterator<Item = &str> {
    text.split_inclusive(|c: char| !(c.is_ascii_alphanumeric() || matches!(c, '_' | '.' | '$')))
}

macro_rules! print_by {
    ($library:ident) => {
        |text, room| {
            for part in parts(text) {
                let symbol = part.trim_end();
                match $library::try_demangle(symbol) {
                    Ok(name) => write!(room.text, "{name}").expect("a string takes all"),
                    Err(_) => room.text.push_str(symbol),
                }
                room.text.push_str(&part[symbol.len()..]);
            }
            room.text.len()
        }
    };
}

macro_rules! try_by {
    ($library:ident) => {
        |text, _| {
            parts(text)
                .filter(|part| $library::try_demangle(part.trim_end()).is_ok())
                .count()
        }
    };
}

fn filter(text: &str, room: &mut Room, fold_arguments: bool) -> usize {
    let format = Format::new()
        .with_hash(true)
        .with_folded_arguments(fold_arguments);
    let mut filter = BytesFilter::with_format(format);
    let mut input = text.as_bytes();
    while filter
        .step(&mut input, &mut room.bytes)
        .expect("a vector takes all")
    {}
    room.bytes.len()
}

type Call = fn(&str, &mut Room) -> usize;

const CALLS: [(&str, Call); 9] = [
    ("crate", print_by!(theirs)),
    ("crate try", try_by!(theirs)),
    ("try_demangle", try_by!(kodliwe)),
    ("Display", print_by!(kodliwe)),
    ("demangle_text", |text, room| {
        kodliwe::demangle_text(text, room, true).expect("a string takes all");
        room.text.len()
    }),
    ("demangle_text folded", |text, room| {
        let format = Format::new().with_hash(true).with_folded_arguments(true);
        kodliwe::demangle_text_formatted(text, room, format).expect("a string takes all");
        room.text.len()
    }),
    ("demangle_slice", |text, room| {
        kodliwe::demangle_slice(text.as_bytes(), &mut room.slice, true, MAX_SIZE).expect("it fits")
    }),
    ("BytesFilter", |text, room| filter(text, room, false)),
    ("BytesFilter folded", |text, room| filter(text, room, true)),
];

#[unsafe(no_mangle)]
#[inline(never)]
pub extern "C" fn measured(call: usize, text: &str, room: &mut Room) -> usize {
    CALLS[call].1(text, room)
}

fn main() {
    let name = std::env::args().nth(1).expect("a call");
    let call = CALLS
        .iter()
        .position(|row| row.0 == name)
        .expect("a known call");
    let mut input = Vec::new();
    std::io::stdin().read_to_end(&mut input).expect("an input");
    let mut room = Room {
        text: String::with_capacity(SIZE),
        bytes: Vec::with_capacity(SIZE),
        slice: vec![0; SIZE],
    };
    let mut rest = &input[..];
    while let Some((size, after)) = rest.split_first_chunk() {
        let (text, after) = after.split_at(u32::from_le_bytes(*size) as usize);
        let text = std::str::from_utf8(text).expect("UTF-8");
        println!("{}", measured(call, text, &mut room));
        room.text.clear();
        room.bytes.clear();
        rest = after;
    }
}
