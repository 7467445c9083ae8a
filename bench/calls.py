#!/usr/bin/env python3
"""Measures single calls of the library: nanoseconds, instructions, and bytes of stack.

The program is demangle_calls, which repeats one call. `make out/build/demangle_calls` builds it. Each call is in a function that is not
inlined. The iterations alternate between two equal texts, so that the compiler omits none.

Nanoseconds: the program runs with k iterations and with 10 k. The difference of the seconds (each the best of nine runs, which
alternate with those of the other calls) is divided by 9 k. The time of iterations without a call is subtracted. Printing includes
the creation of its empty sink. The symbols are the legacy one and the v0 one of middle length of those that
crates/demangle_corpus/stdin has from libraries and programs, and a deep v0 one: 490 nested references, and a back reference. With
--rust-crate the same loop runs over the Rust crate rustc-demangle: its `try_demangle`, and its `Display` into an array of 1,024
bytes, built by cargo outside the repository.

Instructions: `valgrind --tool=callgrind` over 100 iterations and over 600, less those of iterations without a call.

Bytes of stack: `valgrind --tool=drd --show-stack-usage=yes` over one iteration, less those of an iteration without a call. The
arguments of a call (the text, the value, the sink) are not counted. The calls are made below an array of 512 KB, so earlier calls,
which make the value that is printed, do not count. 60 nested tuples are the symbol that fills the first stack of frames, so that
the next one is created.
"""
import argparse, os, re, subprocess, sys, tempfile, time

from measuring import BUILD, CORPUS, instructions, need_rust_crate, need_valgrind
from texts import chained, doubling

PROGRAM = os.path.join(BUILD, "demangle_calls")
TIMED = ["try_demangle", "write_to, ArraySink<1024>"]
# The names of the calls, as the program has them. The first is none.
CALLS = [
    "nothing",
    "try_demangle",
    "demangle",
    "demangle_counted",
    "write_to, ArraySink<1024>",
    "write_counted, ArraySink<1024>",
    "write_limited, ArraySink<1024>",
    "write_limited_counted, ArraySink<1024>",
    "write_to, WriteSink",
    "Display",
    "Debug",
    "demangle_stream",
    "demangle_stream_named",
]
RUST_TIMED = ["try_demangle", "Display into an array"]
DEEP = chained(1)
# Each tuple leaves a frame while the one in it is read.
TUPLES = "_RMC0" + 60 * "T" + "u" + 60 * "E"
# The least seconds of the longer run, and the number of runs of each, of which the best counts.
LONG = 0.5
ROUNDS = 9

RUST_PROGRAM = """//! Repeats a call of rustc-demangle.
use rustc_demangle::{try_demangle, Demangle};
use std::fmt::{Result, Write};
use std::hint::black_box;

struct Sink {
    bytes: [u8; 1024],
    len: usize,
}

impl Write for Sink {
    fn write_str(&mut self, s: &str) -> Result {
        let place = self.bytes.get_mut(self.len..self.len + s.len()).ok_or(std::fmt::Error)?;
        place.copy_from_slice(s.as_bytes());
        self.len += s.len();
        Ok(())
    }
}

#[inline(never)]
fn call_try_demangle(text: &str) -> usize {
    try_demangle(text).is_ok() as usize
}

#[inline(never)]
fn call_display(symbol: &Demangle<'_>, sink: &mut Sink) -> usize {
    write!(sink, "{symbol}").is_ok() as usize
}

fn main() {
    let words: Vec<String> = std::env::args().collect();
    let names = ["nothing", "try_demangle", "Display into an array"];
    let call = names.iter().position(|name| *name == words[1]).unwrap();
    let turns: usize = words[2].parse().unwrap();
    let texts = std::io::read_to_string(std::io::stdin()).unwrap();
    let texts: Vec<&str> = texts.lines().collect();
    let symbols = [rustc_demangle::demangle(texts[0]), rustc_demangle::demangle(texts[1])];
    let mut done = 0usize;
    for at in 0..turns {
        let text = black_box(texts[at % 2]);
        done = done.wrapping_add(match call {
            0 => text.len(),
            1 => call_try_demangle(text),
            _ => {
                let mut sink = Sink { bytes: [0; 1024], len: 0 };
                call_display(black_box(&symbols[at % 2]), &mut sink) + black_box(sink.len)
            }
        });
    }
    println!("{done}");
}
"""


def built_rust(folder, crate):
    """Makes the same program over the Rust crate, and returns its path."""
    project = os.path.join(folder, "rust_calls")
    os.makedirs(os.path.join(project, "src"))
    with open(os.path.join(project, "src", "main.rs"), "w") as file:
        file.write(RUST_PROGRAM)
    with open(os.path.join(project, "Cargo.toml"), "w") as file:
        file.write(
            '[package]\nname = "rust_calls"\nversion = "0.0.0"\nedition = "2021"\n\n[dependencies]\n'
            'rustc-demangle = { path = "%s" }\n\n[workspace]\n' % os.path.abspath(crate)
        )
    words = ["cargo", "build", "--release", "--offline", "--quiet", "--manifest-path", os.path.join(project, "Cargo.toml")]
    subprocess.run(words, env=dict(os.environ, RUSTFLAGS="--cap-lints=allow"), check=True)
    return os.path.join(project, "target", "release", "rust_calls")


def middle(prefix, lines):
    """The accepted symbol of middle length of these lines of the corpus."""
    fields = [line.split("\t") for line in lines]
    found = sorted((field[0] for field in fields if field[1] == "OK" and field[0].startswith(prefix)), key=len)
    return found[len(found) // 2]


def typical():
    with open(CORPUS, encoding="utf-8", newline="\n") as file:
        lines = file.read().split("\n")
    return middle("_ZN", lines[:500]), middle("_R", lines[800:1700])


def run_seconds(program, call, turns, text):
    began = time.perf_counter()
    subprocess.run([program, call, str(turns)], input=text, stdout=subprocess.DEVNULL, check=True)
    return time.perf_counter() - began


def turns_of(program, call, text):
    """A number of iterations, such that ten times as many take at least LONG."""
    turns = 100
    while run_seconds(program, call, 10 * turns, text) < LONG:
        turns *= 3
    return turns


def nanoseconds(calls, symbol):
    """The time of an iteration of each call, with its loop. The calls run in sequence in each of ROUNDS rounds."""
    text = (symbol + "\n").encode() * 2
    turns = [turns_of(program, call, text) for program, call in calls]
    runs = [(program, call, count) for (program, call), few in zip(calls, turns) for count in (few, 10 * few)]
    rounds = [[run_seconds(*words, text) for words in runs] for _ in range(ROUNDS)]
    best = [min(times) for times in zip(*rounds)]
    return [(many - few) / (9 * count) * 1e9 for few, many, count in zip(best[::2], best[1::2], turns)]


def turn_instructions(calls, symbol):
    """The instructions of an iteration of each call, with its loop."""
    text = (symbol + "\n").encode() * 2
    counted = [[instructions([program, call, turns], text) for turns in ("100", "600")] for program, call in calls]
    return [(many - few) // 500 for few, many in counted]


def print_table(title, measured, rows, symbols):
    """A line for each row (a name, a program, a call), less the cost of an iteration without a call."""
    programs = list(dict.fromkeys(program for _, program, _ in rows))
    calls = [(program, CALLS[0]) for program in programs] + [(program, call) for _, program, call in rows]
    columns = []
    for symbol in symbols:
        taken = measured(calls, symbol)
        empty = dict(zip(programs, taken))
        columns.append([took - empty[program] for (_, program, _), took in zip(rows, taken[len(programs) :])])
    print("| %s | legacy | v0 | deep v0 |\n| --- | ---: | ---: | ---: |" % title)
    for (name, _, _), used in zip(rows, zip(*columns)):
        print("| %s | " % name + " | ".join("{:,.0f}".format(count) for count in used) + " |")
    print(flush=True)


def stack(program, call, symbol):
    text = (symbol + "\n").encode() * 2
    words = ["valgrind", "--tool=drd", "--show-stack-usage=yes", program, call, "1"]
    run = subprocess.run(words, input=text, stdout=subprocess.DEVNULL, stderr=subprocess.PIPE, check=True)
    return int(re.search(rb"thread 1 finished and used (\d+) bytes", run.stderr).group(1))


def main():
    words = argparse.ArgumentParser(description=__doc__, formatter_class=argparse.RawDescriptionHelpFormatter)
    words.add_argument("--program", metavar="PATH", default=PROGRAM, help="measure this build of demangle_calls")
    words.add_argument("--rust-crate", metavar="FOLDER", help="the folder of the Rust crate rustc-demangle: measured beside this library")
    given = words.parse_args()
    if not os.path.exists(given.program):
        sys.exit("no %s: build it first, by `make out/build/demangle_calls`" % given.program)
    need_valgrind()
    if given.rust_crate:
        need_rust_crate(given.rust_crate)
    legacy, v0 = typical()
    with tempfile.TemporaryDirectory() as temporary:
        rows = [(call, given.program, call) for call in TIMED]
        if given.rust_crate:
            rust = built_rust(temporary, given.rust_crate)
            rows += [("%s of rustc-demangle" % call, rust, call) for call in RUST_TIMED]
        print("legacy: `%s`\n\nv0: `%s`\n" % (legacy, v0))
        for title, measured in (("nanoseconds", nanoseconds), ("instructions", turn_instructions)):
            print_table(title, measured, rows, (legacy, v0, DEEP))
        symbols = (legacy, v0, doubling(17), DEEP, TUPLES)
        without = [stack(given.program, CALLS[0], symbol) for symbol in symbols]
        print("| bytes of stack | legacy | v0 | doubling, 17 tuples | deep v0 | 60 tuples |\n| --- | ---: | ---: | ---: | ---: | ---: |")
        for call in CALLS[1:]:
            used = [stack(given.program, call, symbol) - base for symbol, base in zip(symbols, without)]
            print("| %s | " % call + " | ".join("{:,}".format(count) for count in used) + " |", flush=True)


if __name__ == "__main__":
    sys.exit(main())
