#!/usr/bin/env python3
"""Runs kodliwe, demangle_filter and the other demanglers of this machine over the same text, side by side.

Without --text it makes a log of the symbols that crates/demangle_corpus/stdin has.
For each program it prints lines a second (the best of five runs) and instructions a line, counted by
`valgrind --tool=callgrind` over each 21st line, with those of a run on no input taken off; without valgrind it prints
`-` for these. With --save it writes the text that it makes, and runs nothing. With --scheme the text has only the symbols of one
scheme. With --rates it prints megabytes a second of processor time (the best of five runs) over three texts that have few symbols,
and how many times as fast as demangle_filter that is; `cat` and `grep -c _R` are run for comparison.
`make` builds the programs.
"""
import argparse, os, shutil, sys, tempfile

from measuring import FILTER, KODLIWE, further, instructions, need_programs, others, processor_seconds, seconds
from texts import FORMS, SCHEMES, made_lines, symbols

PLAIN = "no symbol on this line, only a few words and numbers {n}\n"
LOW_LINES = "call_of_{n} in my_module_name.c: some_field->other_field_{n} __attribute__ _start _end_of_text\n"


def text_of(given):
    if given.text:
        with open(given.text, "rb") as file:
            return file.read()
    return "".join(made_lines(given.repeat, given.scheme)).encode()


def rate_texts():
    """Texts that have few symbols, by name. Each is some lines, which are repeated."""
    found = list(symbols("all"))
    plain = [PLAIN.format(n=n) for n in range(100 * len(found))]
    yield "no symbol", plain
    yield "a symbol in a hundred lines", [
        FORMS[0].format(n=n, a=n, s=found[n // 100]) if n % 100 == 0 else line for n, line in enumerate(plain)
    ]
    yield "many `_`", [LOW_LINES.format(n=n) for n in range(100_000)]


def print_rates(size, also):
    """Megabytes a second of processor time, over texts of that many megabytes."""
    programs = [("kodliwe", [KODLIWE]), ("demangle_filter", [FILTER]), ("cat", ["cat"]), ("grep -c _R", ["grep", "-c", "_R"])]
    programs += list(others()) + also
    print("| text | program | MB a second | times demangle_filter |")
    print("| --- | --- | ---: | ---: |")
    for name, lines in rate_texts():
        part = "".join(lines).encode()
        with tempfile.NamedTemporaryFile() as file:
            for _ in range(size * 1_000_000 // len(part) + 1):
                file.write(part)
            file.flush()
            megabytes = os.path.getsize(file.name) / 1_000_000
            took = {program: processor_seconds(command, file.name) for program, command in programs}
        for program, seconds_taken in took.items():
            # A text that is too short to measure a program's time has no rate.
            rate = "{:,.0f}".format(megabytes / seconds_taken) if seconds_taken else "-"
            times = "%.2f" % (took["demangle_filter"] / seconds_taken) if seconds_taken else "-"
            print("| %s | %s | %s | %s |" % (name, program, rate, times), flush=True)


def main():
    words = argparse.ArgumentParser(description=__doc__, formatter_class=argparse.RawDescriptionHelpFormatter)
    words.add_argument("--text", metavar="FILE", help="run over this text")
    words.add_argument(
        "--repeat", type=int, default=20, metavar="N", help="how often each symbol stands in the text that is made (default 20)"
    )
    words.add_argument("--scheme", choices=sorted(SCHEMES), default="all", help="the scheme of the symbols in the text that is made")
    words.add_argument("--rates", type=int, metavar="MB", help="print the rates over texts of so many megabytes instead")
    words.add_argument("--save", metavar="FILE", help="write the text that is made into this file, and run nothing")
    words.add_argument(
        "--also",
        type=further,
        action="append",
        default=[],
        metavar="NAME=COMMAND",
        help="a further program to run (may stand more than once)",
    )
    given = words.parse_args()
    if given.save:
        with open(given.save, "w", encoding="utf-8") as file:
            file.writelines(made_lines(given.repeat, given.scheme))
        return
    need_programs()
    if given.rates:
        print_rates(given.rates, given.also)
        return
    text = text_of(given)
    lines = text.count(b"\n")
    few = b"".join(text.splitlines(True)[::21])
    few_lines = few.count(b"\n")
    counts = shutil.which("valgrind")
    if not counts:
        print("no valgrind on this machine (Debian package valgrind): instructions are left out", file=sys.stderr)
    programs = [("kodliwe", [KODLIWE, "--hash"]), ("demangle_filter", [FILTER])] + list(others()) + given.also
    print("%d lines, %d bytes" % (lines, len(text)))
    print("| program | lines a second | instructions a line |")
    print("| --- | ---: | ---: |")
    for name, command in programs:
        rate = lines / seconds(command, text)
        count = "-"
        if counts:
            count = "{:,}".format((instructions(command, few) - instructions(command, b"")) // few_lines)
        print("| %s | %s | %s |" % (name, "{:,.0f}".format(rate), count), flush=True)


if __name__ == "__main__":
    sys.exit(main())
