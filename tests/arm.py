#!/usr/bin/env python3
"""Builds the static library for 64-bit ARM Linux and runs it under qemu-aarch64.

tests/c_library/answers.c, built for that machine, gives the stored answers of crates/demangle_corpus/stdin in both forms, with guard
bytes and fenced pages, and checks costly symbols. The last line is 'N passed, N failed'. A missing tool is a failure.
"""
import os
import shutil
import sys

from c_library import HERE, compared
from common import INCLUDE, ROOT, Tally, run, tool
from texts import hostile, record, stored, trees

TARGET = "aarch64-unknown-linux-gnu"
FOLDER = os.path.join(ROOT, "out", "arm")
ARCHIVE = os.path.join(FOLDER, "libkodliwe.a")
PROGRAM = os.path.join(FOLDER, "answers")
EMULATOR = "qemu-aarch64"


def check_build():
    """Builds the archive. The one for this machine's processor is in out/build by now."""
    os.makedirs(FOLDER, exist_ok=True)
    run([os.path.join(ROOT, "packaging", "prove"), "demangle_c", "--target=" + TARGET])
    shutil.copy(os.path.join(ROOT, "crates", "demangle_c", "out", "libdemangle_c.a"), ARCHIVE)
    said = run([tool("aarch64-linux-gnu-objdump", "binutils-aarch64-linux-gnu"), "-f", ARCHIVE]).decode()
    assert "architecture: aarch64" in said and "x86" not in said, said[:500]


def check_program():
    compiler = tool("aarch64-linux-gnu-gcc", "gcc-aarch64-linux-gnu")
    run([compiler, "-O1", "-static", "-Wall", "-Wextra", "-I", INCLUDE, os.path.join(HERE, "answers.c"), ARCHIVE, "-o", PROGRAM])


def check_answers():
    expected = list(stored())
    out = run([tool(EMULATOR, "qemu-user"), PROGRAM, "quick"], input=b"".join(record(symbol, limit) for symbol, limit, _ in expected))
    compared(out, expected)
    some = expected[::40]
    compared(run([tool(EMULATOR), PROGRAM], input=b"".join(record(symbol, limit) for symbol, limit, _ in some)), some)
    return "%d texts in both forms, and %d of them at 13 sizes and in parts: no answer differs" % (len(expected), len(some))


def check_hostile():
    texts = trees()[::4] + [text.encode() for _, text in hostile() if len(text) < 100_000]
    run([tool(EMULATOR, "qemu-user"), PROGRAM, "quick"], input=b"".join(record(text, 4096) for text in texts))
    return "%d texts: each answered as the header says" % len(texts)


def main():
    tally = Tally(sys.argv[1:])
    tally.step("build", check_build)
    tally.step("program", check_program)
    tally.step("answers", check_answers)
    tally.step("hostile", check_hostile)
    return tally.end()


if __name__ == "__main__":
    sys.exit(main())
