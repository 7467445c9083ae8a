#!/usr/bin/env python3
"""Counts the instructions that kodliwe and the other demanglers of this machine take for a line of text.

It prints a Markdown table with a row for each text and a column for each program. `valgrind --tool=callgrind` counts a run over the
text, less a run on no input. The texts are the logs of bench/bench.py, bench/generic.txt.gz, the first lines of those of
bench/repeats.py, and logs as other programs write them. --text adds a file, and --also a program. `make` builds the programs; --cargo
PATH is the one that cargo built.
"""
import argparse
import gzip
import itertools
import json
import os
import re

from measuring import FILTER, KODLIWE, further, instructions, need_programs, need_valgrind, others
from repeats import made_texts
from texts import doubling, made_lines

# The most lines of a text, and the megabytes of the longest text that is made for them.
LINES, SIZE = 4_000, 8

# Symbols of generic code: parser combinators, futures, iterators and rayon. Over half of them have three references or more.
GENERIC = os.path.join(os.path.dirname(os.path.abspath(__file__)), "generic.txt.gz")
# The lengths of long symbols: they are validated before they are printed, but their texts are copied.
LONG = range(385, 2049)
# Twelve tuples in each other, whose references double the text at each level.
TUPLES = doubling(12).encode()
# One symbol in so many is cut, at this column.
CUT, WIDTH = 50, 120
# What grep --color writes before a match and after it.
RED, PLAIN = "\x1b[01;31m\x1b[K", "\x1b[m\x1b[K"
# A v0 symbol, as the corpus has them.
V0 = re.compile(r"_R[0-9A-Za-z_.$]+")


def first_lines(parts):
    """Returns the first lines of a text that is made in parts."""
    found = []
    for part in parts:
        found += part.splitlines(True)
        if len(found) >= LINES:
            break
    return b"".join(found[:LINES])


def cut(lines):
    """Yields the lines. One v0 symbol in CUT is cut, since its line is. It is the next one that is across the column WIDTH."""
    due = 0
    for line in lines:
        found = V0.search(line)
        due += found is not None
        if found and due >= CUT and found.start() + len("_R") < WIDTH < found.end():
            line, due = line[:WIDTH] + line[line.index("\n") :], due - CUT
        yield line


def logs():
    """Yields logs with their names and the options of kodliwe for them."""
    made = {scheme: list(itertools.islice(made_lines(1, scheme), LINES)) for scheme in ("legacy", "v0", "all")}
    v0 = made["v0"]
    for name, scheme in (("legacy", "legacy"), ("v0", "v0"), ("both", "all")):
        yield "a log, " + name, made[scheme], ["--hash"]
    yield "a log, v0, without hashes", v0, []
    yield "a log, v0, folded", v0, ["--fold"]
    yield "a log, v0, one in %d cut at %d columns" % (CUT, WIDTH), list(cut(v0)), ["--hash"]
    # In a string, the line feed before a symbol is `\n`, so that the symbol follows a letter.
    strings = [json.dumps({"level": "error", "msg": V0.sub(r"\n\g<0>", line)}) + "\n" for line in v0]
    yield "a log, v0, in JSON strings", strings, ["--hash"]
    yield "a log, v0, in color", [V0.sub(lambda symbol: RED + symbol[0] + PLAIN, line) for line in v0], ["--hash"]


def made():
    """Yields each text that is not given with its name and the options of kodliwe for it."""
    for name, lines, options in logs():
        yield name, "".join(lines).encode(), options
    with gzip.open(GENERIC) as generic:
        symbols = generic.read().splitlines(True)
    yield "symbols of generic code", b"".join(symbols), ["--hash"]
    yield "symbols of generic code, folded", b"".join(symbols), ["--fold"]
    long = b"".join(symbol for symbol in symbols if len(symbol.strip()) in LONG)
    yield "symbols of %d to %s bytes" % (LONG[0], "{:,}".format(LONG[-1])), long, ["--hash"]
    yield "nested tuples that repeat", b"".join(b"%s.%d\n" % (TUPLES, at) for at in range(100)), ["--hash"]
    wanted = {"profile": "a profile", "once": "symbols that come once", "plain": "no symbol", "underscores": "many `_`"}
    for name, parts in made_texts(SIZE * 1_000_000):
        if name in wanted:
            yield wanted[name], first_lines(parts), []


def texts(given):
    """Yields each text with its name and the options of kodliwe for it, those that are given too."""
    yield from made()
    for path in given.text:
        with open(path, "rb") as file:
            yield os.path.basename(path), first_lines([file.read()]), []


def main():
    parser = argparse.ArgumentParser(description=__doc__, formatter_class=argparse.RawDescriptionHelpFormatter)
    parser.add_argument("--cargo", metavar="PATH", help="kodliwe, built by cargo")
    parser.add_argument("--text", action="append", default=[], metavar="FILE")
    parser.add_argument("--also", type=further, action="append", default=[], metavar="NAME=COMMAND", help="a further program")
    given = parser.parse_args()
    need_programs()
    need_valgrind()
    programs = [("kodliwe", [KODLIWE])] + ([("by cargo", [given.cargo])] if given.cargo else [])
    programs += [("demangle_filter", [FILTER])] + list(others()) + given.also
    starts = {name: instructions(words, b"") for name, words in programs}
    print("| instructions a line | %s |" % " | ".join(name for name, _ in programs))
    print("| --- |" + " ---: |" * len(programs), flush=True)
    for title, text, options in texts(given):
        lines = text.count(b"\n")
        # Only kodliwe has options. The other programs print hashes and arguments, whatever the row.
        counts = [
            (instructions(words + (options if words[0] in (KODLIWE, given.cargo) else []), text) - starts[name]) // lines
            for name, words in programs
        ]
        print("| %s | %s |" % (title, " | ".join("{:,}".format(count) for count in counts)), flush=True)


if __name__ == "__main__":
    main()
