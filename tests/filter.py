#!/usr/bin/env python3
"""Runs the built demangle_filter as its users do, and compares what it writes, its line of an error and its status.

It covers cases that `rt ci` cannot try by its one stored run: arguments, bytes that are not UTF-8, input in two parts, an output
that is closed or full. `make` builds the program; --program names another one. The last line is 'N passed, N failed'.
"""
import argparse, os, subprocess, sys, threading

from common import FILTER, Tally, built

USAGE = b"usage: demangle_filter [--no-hash]\n"
NOT_UTF8 = b"demangle_filter: not UTF-8\n"
WRITE_FAILED = b"demangle_filter: write failed\n"
HASHED = b"a _ZN3foo17h05af221e174051e9E b\r\n\n_RNvCs_3foo3bar"

# A name, the arguments, the input, and the expected output, line of an error and status.
RUNS = [
    ("with the hash", [], HASHED, b"a foo::h05af221e174051e9 b\r\n\nfoo[1]::bar", b"", 0),
    ("--no-hash", ["--no-hash"], HASHED, b"a foo b\r\n\nfoo::bar", b"", 0),
    ("no input", [], b"", b"", b"", 0),
    ("a byte that is not UTF-8", [], b"x _RCx _ZN3fooE\n\xff", b"x _RCx foo\n", NOT_UTF8, 1),
    ("such a byte in the first line", [], b"_ZN3fooE \xff\n_ZN3fooE\n", b"", NOT_UTF8, 1),
    ("another word", ["-n"], b"_ZN3fooE\n", b"", USAGE, 2),
    ("a symbol as a word", ["_ZN3fooE"], b"_ZN3fooE\n", b"", USAGE, 2),
    ("the word twice", ["--no-hash", "--no-hash"], b"_ZN3fooE\n", b"", USAGE, 2),
    ("an empty word", [""], b"_ZN3fooE\n", b"", USAGE, 2),
    ("a word that is not UTF-8", [b"\xff"], b"_ZN3fooE\n", b"", USAGE, 2),
    ("a long line", [], b"l" * 100_000 + b" _ZN3fooE\n", b"l" * 100_000 + b" foo\n", b"", 0),
]


def run(program, words, text):
    ran = subprocess.run([program] + words, input=text, stdout=subprocess.PIPE, stderr=subprocess.PIPE, timeout=20)
    return ran.stdout, ran.stderr, ran.returncode


def in_two_parts(program):
    """A line that is finished is written before the program is given more; the next comes in two parts."""
    child = subprocess.Popen([program], stdin=subprocess.PIPE, stdout=subprocess.PIPE, stderr=subprocess.PIPE)
    stop = threading.Timer(20, child.kill)
    stop.start()
    child.stdin.write(b"_ZN3fooE\n_ZN3b")
    child.stdin.flush()
    first = child.stdout.readline()
    child.stdin.write(b"arE\n")
    child.stdin.close()
    rest, errors = child.stdout.read(), child.stderr.read()
    status = child.wait()
    stop.cancel()
    return (first, rest, errors, status) == (b"foo\n", b"bar\n", b"", 0)


def into_a_full_disk(program):
    with open("/dev/full", "wb") as full:
        ran = subprocess.run([program], input=b"_ZN3fooE\n", stdout=full, stderr=subprocess.PIPE, timeout=20)
    return (ran.stderr, ran.returncode) == (WRITE_FAILED, 1)


def into_a_closed_pipe(program):
    reading, writing = os.pipe()
    os.close(reading)
    try:
        ran = subprocess.run([program], input=b"_ZN3fooE\n", stdout=writing, stderr=subprocess.PIPE, timeout=20)
    finally:
        os.close(writing)
    return (ran.stderr, ran.returncode) == (WRITE_FAILED, 1)


def check(program, test, *wanted):
    assert test(program, *wanted), "it wrote, told or ended otherwise"


def one_run(program, words, text, output, errors, status):
    return run(program, words, text) == (output, errors, status)


def over_many_lines(program):
    """A text of 1,100,000 lines, and a line of 5 MB."""
    lines = run(program, [], b"_ZN1aE\n" * 1_100_000) == (b"a\n" * 1_100_000, b"", 0)
    return lines and run(program, [], b"l" * 5_000_000 + b" _ZN3fooE\n") == (b"l" * 5_000_000 + b" foo\n", b"", 0)


def main():
    parser = argparse.ArgumentParser(description=__doc__, formatter_class=argparse.RawDescriptionHelpFormatter)
    parser.add_argument("--program", default=FILTER, help="the program, in place of the built one")
    program = parser.parse_args().program
    tally = Tally()
    tally.step("the program", built, program)
    for name, *wanted in RUNS:
        tally.step(name, check, program, one_run, *wanted)
    for test in (in_two_parts, into_a_full_disk, into_a_closed_pipe, over_many_lines):
        tally.step(test.__name__.replace("_", " "), check, program, test)
    return tally.end()


if __name__ == "__main__":
    sys.exit(main())
