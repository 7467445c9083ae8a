//! Adds up a profile by function, with one row for all instances of a generic function.
//!
//! Reads lines of a count and a symbol, and writes the counts of each path, the largest first:
//!
//!     perf script --no-demangle -F ip,sym | awk '{ print $2 }' | sort | uniq -c |
//!         cargo run --example profile
use kodliwe::{FmtSink, Format, demangle};
use std::collections::HashMap;
use std::io::{self, BufRead};

const FOLDED: Format = Format::new().with_folded_arguments(true);

fn main() -> io::Result<()> {
    let mut counts: HashMap<String, u64> = HashMap::new();
    for line in io::stdin().lock().lines() {
        let line = line?;
        let Some((count, symbol)) = line.trim_start().split_once(' ') else {
            continue;
        };
        let mut path = String::new();
        let written = demangle(symbol.trim()).write_formatted(&mut FmtSink::new(&mut path), FOLDED);
        written.expect("a string takes all");
        *counts.entry(path).or_default() += count.parse::<u64>().unwrap_or(0);
    }
    let mut rows: Vec<_> = counts.into_iter().collect();
    rows.sort_by(|one, other| other.1.cmp(&one.1).then_with(|| one.0.cmp(&other.0)));
    for (path, count) in rows {
        println!("{count:10} {path}");
    }
    Ok(())
}
