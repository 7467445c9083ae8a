#!/usr/bin/env python3
"""Counts the looks of demangling and printing costly symbols, and prints them next to the bounds that are proved.

Looks have no bytes at run time, so no program can count them. This makes a copy of the library's crates outside the repository
in which `Looks` also has a number of 64 bits that each `tick` raises. A program over the copy sums the looks of each symbol of a
line. `rt run` proves the copy and builds it (in 12 to 18 minutes with one job, on a loaded machine). All contracts hold in it,
except the fact that `Looks` has no bytes. That the number is the count of the contracts follows from the text below, and is not
proved. `rt try` needs no proof, but its checks make a costly symbol take over a minute. It needs the Rattle kit.

The symbols are those of bench/hostile.py, and 10^6 of each further production that nests. It prints a Markdown table with a row for
each: the bytes m of the given text, the bytes n of the value, the looks of `demangle_counted` and their bound, 64 x (m + 1),
the bytes w that are kept before the marker, the looks of `write_counted` with the hash and their bound. The bound is
100,000 x (w + 1) x (n + 1) for a v0 symbol, 16 x (n + 1) for a legacy one, and 0 for a text that is not a symbol. For a line of
many symbols, each column is the sum. It ends with how near the looks of the doublings come to their bounds, for each number of
tuples up to 58. Its status is 1 if a bound is exceeded.
"""
import argparse, os, subprocess, sys, tempfile

from measuring import build, copy_library, need_kit
from texts import MANY, doubling, hostile

MOST_TUPLES = 58

# The file of `Looks`, in the crate that has it.
LOOKS = os.path.join("src", "cursor", "looks.rt")
# The changes of its text: lines that are added or replaced.
EDITS = [
    ("    count: Snapshot<Unary>,\n", "    count: Snapshot<Unary>,\n    number: u64,\n"),
    ("            count: Snapshot::of(&Unary::Zero),\n", "            count: Snapshot::of(&Unary::Zero),\n            number: 0,\n"),
    (
        "        self.count = Snapshot::of(&Unary::More(before));\n    }\n",
        "        self.count = Snapshot::of(&Unary::More(before));\n        self.number = self.number.wrapping_add(1);\n    }\n\n"
        "    /// How many there are.\n    pub fn number(&self) -> u64 {\n        self.number\n    }\n",
    ),
    ("\nconst _: () = prove!(mem::size_of::<Looks>() == 0);\n", ""),
]

PROGRAM = """//! Prints the looks of each line's symbols, and their bounds.
#![tactic(auto)]

use rustc_demangle::sink::WriteSink;
use rustc_demangle::{Looks, demangle_counted, try_demangle};
use std::io;
use std::io::{BufRead, BufReader, Write};

/// Counts the bytes that it receives, except those of the marker.
#[derive(Drop)]
struct Counter {
    bytes: u64,
}

impl Write for Counter {
    fn write(&mut self, piece: &[u8]) -> io::Result<usize> {
        if piece != b"{size limit reached}".as_slice() {
            self.bytes = self.bytes.wrapping_add(piece.len() as u64);
        }
        Ok(piece.len())
    }

    fn flush(&mut self) -> io::Result<()> {
        Ok(())
    }
}

/// The sums over a line: the bytes of the given texts, of the values and of the kept pieces, and the looks and their bounds.
#[derive(Drop)]
struct Sums {
    handed: u64,
    value: u64,
    kept: u64,
    reading: u64,
    reading_bound: u64,
    printing: u64,
    printing_bound: u64,
}

fn bound(text: &str, kept: u64, len: u64) -> u64 {
    if try_demangle(text).is_err() {
        return 0;
    }
    if text.starts_with("_ZN") {
        return len.wrapping_add(1).wrapping_mul(16);
    }
    kept.wrapping_add(1).wrapping_mul(len.wrapping_add(1)).wrapping_mul(100000)
}

fn add(sums: &mut Sums, text: &str) {
    let mut reading = Looks::new();
    let symbol = demangle_counted(text, &mut reading);
    let mut printing = Looks::new();
    let mut output = Counter { bytes: 0 };
    let mut sink = WriteSink::new(&mut output);
    let _ = symbol.write_counted(&mut sink, true, &mut printing);
    let _ = sink.into_fault();
    let handed = text.len() as u64;
    let value = symbol.as_str().len() as u64;
    sums.handed = sums.handed.wrapping_add(handed);
    sums.value = sums.value.wrapping_add(value);
    sums.kept = sums.kept.wrapping_add(output.bytes);
    sums.reading = sums.reading.wrapping_add(reading.number());
    sums.reading_bound = sums.reading_bound.wrapping_add(handed.wrapping_add(1).wrapping_mul(64));
    sums.printing = sums.printing.wrapping_add(printing.number());
    sums.printing_bound = sums.printing_bound.wrapping_add(bound(text, output.bytes, value));
}

fn main(rt: HostRuntime) -> io::Result<()> {
    let alloc = rt.alloc();
    let mut input = BufReader::new(alloc, rt.stdin().lock())?;
    for line in input.lines(alloc) {
        let line = line?;
        let mut sums = Sums {
            handed: 0,
            value: 0,
            kept: 0,
            reading: 0,
            reading_bound: 0,
            printing: 0,
            printing_bound: 0,
        };
        for text in line.as_str().split(' ') {
            if !text.is_empty() {
                add(&mut sums, text);
            }
        }
        let Sums { handed, value, kept, reading, reading_bound, printing, printing_bound } = sums;
        println!(rt; "{handed} {value} {kept} {reading} {reading_bound} {printing} {printing_bound}")?;
    }
    Ok(())
}
"""


def counted(folder, lines, jobs):
    """Makes the copy and the program over it, and returns the columns that it prints for each line."""
    copy_library(folder, "count_looks", [(LOOKS, old, new) for old, new in EDITS])
    source = os.path.join(folder, "crates", "count_looks", "src")
    os.makedirs(source)
    with open(os.path.join(source, "main.rt"), "w") as file:
        file.write(PROGRAM)
    program = build(folder, "count_looks", jobs)
    text = "".join(line + "\n" for line in lines)
    run = subprocess.run([program], input=text, stdout=subprocess.PIPE, check=True, encoding="utf-8")
    return [[int(word) for word in line.split()] for line in run.stdout.splitlines()]


def cases():
    yield from hostile()
    for start, nested in (("_RMC0", ("Q", "F", "W", "DIC0")), ("_R", ("M", "X", "Y", "I", "Nv")), ("_RIC0K", ("R", "Q", "A", "T", "VC0T"))):
        for unit in nested:
            yield "`%s` and 10^6 `%s`" % (start, unit), start + unit * MANY


class Row:
    """What was counted of a line, and the bounds."""

    def __init__(self, columns):
        self.handed, self.value, self.kept, self.reading, self.reading_bound, self.printing, self.printing_bound = columns

    def cells(self):
        columns = (self.handed, self.value, self.reading, self.reading_bound, self.kept, self.printing, self.printing_bound)
        cells = ["{:,}".format(column) for column in columns]
        if self.printing_bound == 0:
            # Not a symbol: nothing is cut, so there is no marker.
            cells[4] = "-"
        return cells

    def holds(self):
        return self.reading <= self.reading_bound and self.printing <= self.printing_bound


def nearest(rows, looks, bound):
    """The row whose looks are the greatest part of their bound, and that part."""
    part, place = max((looks(row) / bound(row), place) for place, row in enumerate(rows))
    return "%.2g of the bound (%d tuples)" % (part, place)


def main():
    words = argparse.ArgumentParser(description=__doc__, formatter_class=argparse.RawDescriptionHelpFormatter)
    words.add_argument(
        "--keep", metavar="FOLDER", help="make the copy in this folder, which is not there before and stays (default: a temporary one)"
    )
    words.add_argument("--jobs", type=int, metavar="N", help="how many jobs `rt run` takes")
    given = words.parse_args()
    need_kit()
    names, lines = zip(*cases())
    doublings = [doubling(tuples) for tuples in range(MOST_TUPLES + 1)]
    with tempfile.TemporaryDirectory() as temporary:
        rows = [Row(columns) for columns in counted(given.keep or temporary, list(lines) + doublings, given.jobs)]
    print("| symbol | m | n | looks of `demangle_counted` | bound | w | looks of `write_counted` | bound |")
    print("| --- |" + " ---: |" * 7)
    for name, row in zip(names, rows):
        print("| " + " | ".join([name] + row.cells()) + " |")
    doubled = rows[len(names) :]
    print(
        "\ndoubling, 0 to %d tuples: `demangle_counted` takes at most %s, `write_counted` at most %s"
        % (
            MOST_TUPLES,
            nearest(doubled, lambda row: row.reading, lambda row: row.reading_bound),
            nearest(doubled, lambda row: row.printing, lambda row: row.printing_bound),
        )
    )
    return 0 if all(row.holds() for row in rows) else 1


if __name__ == "__main__":
    sys.exit(main())
