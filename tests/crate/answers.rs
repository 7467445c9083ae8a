//! Prints the results of the library for symbols.
//!
//! usage: answers records < RECORDS, answers lines < SYMBOLS
//!
//! A record is 4 bytes of a length, 8 bytes of a limit and the text. The limit `u64::MAX` means no limit.
//! For each it writes five fields with 4 bytes of their length before them: `OK` or `ERR`, `as_str`,
//! the two printed forms, and the pieces of each form, with U+001F between them and U+001E between
//! the forms. `lines` writes for each line `OK` or `ERR` and the two forms, with tabs between them.
use kodliwe::{demangle, try_demangle, Demangle, SinkRefused, TextSink};
use std::io::{self, Read, Write};

/// Keeps the nonempty pieces.
struct Pieces(Vec<String>);

impl TextSink for Pieces {
    fn put(&mut self, piece: &str) -> Result<(), SinkRefused> {
        if !piece.is_empty() {
            self.0.push(piece.to_owned());
        }
        Ok(())
    }

    fn is_failed(&self) -> bool {
        false
    }
}

fn pieces_of(symbol: &Demangle<'_>, include_hash: bool, limit: Option<usize>) -> Vec<String> {
    let mut pieces = Pieces(Vec::new());
    let written = match limit {
        Some(limit) => symbol.write_limited(&mut pieces, include_hash, limit),
        None => symbol.write_to(&mut pieces, include_hash),
    };
    written.expect("the sink takes all");
    pieces.0
}

fn status_of(text: &str) -> &'static str {
    if try_demangle(text).is_ok() {
        "OK"
    } else {
        "ERR"
    }
}

fn put(to: &mut impl Write, field: &str) -> io::Result<()> {
    to.write_all(&(field.len() as u32).to_le_bytes())?;
    to.write_all(field.as_bytes())
}

fn answer(text: &str, limit: u64, to: &mut impl Write) -> io::Result<()> {
    let symbol = demangle(text);
    let limit = usize::try_from(limit).ok().filter(|_| limit != u64::MAX);
    let forms = [true, false].map(|include_hash| pieces_of(&symbol, include_hash, limit));
    put(to, status_of(text))?;
    put(to, symbol.as_str())?;
    let shown = [symbol.to_string(), format!("{symbol:#}")];
    for (pieces, shown) in forms.iter().zip(shown) {
        let joined = pieces.concat();
        assert!(limit.is_some() || joined == shown, "{text}");
        put(to, &joined)?;
    }
    put(
        to,
        &forms.map(|pieces| pieces.join("\u{1f}")).join("\u{1e}"),
    )
}

fn answer_records(input: &[u8], to: &mut impl Write) -> io::Result<()> {
    let mut rest = input;
    while let Some((size, after)) = rest.split_first_chunk() {
        let (limit, after) = after.split_first_chunk().expect("a limit");
        let (text, after) = after.split_at(u32::from_le_bytes(*size) as usize);
        let text = std::str::from_utf8(text).expect("UTF-8");
        answer(text, u64::from_le_bytes(*limit), to)?;
        rest = after;
    }
    Ok(())
}

fn answer_lines(input: &[u8], to: &mut impl Write) -> io::Result<()> {
    for text in std::str::from_utf8(input).expect("UTF-8").lines() {
        let symbol = demangle(text);
        writeln!(to, "{}\t{symbol}\t{symbol:#}", status_of(text))?;
    }
    Ok(())
}

fn main() -> io::Result<()> {
    let mut input = Vec::new();
    let mut output = io::BufWriter::new(io::stdout().lock());
    match std::env::args().nth(1).as_deref() {
        Some("records") => {
            io::stdin().read_to_end(&mut input)?;
            answer_records(&input, &mut output)?;
        }
        Some("lines") => {
            io::stdin().read_to_end(&mut input)?;
            answer_lines(&input, &mut output)?;
        }
        _ => panic!("usage: answers records | lines"),
    }
    output.flush()
}
