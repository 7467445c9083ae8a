#!/usr/bin/env python3
"""Runs `make`, with the kit and without it, and compares the end of what it prints with README's first example.

The last line is 'N passed, N failed'.
"""
import os
import re
import subprocess
import sys

from common import ARCHIVE, FILTER, KODLIWE, ROOT, SHARED, Tally, built, run, same


def make(*words):
    """Returns what `make` prints, as a user calls it."""
    env = {name: value for name, value in os.environ.items() if name not in ("MAKEFLAGS", "MFLAGS", "MAKELEVEL")}
    return run(["make", "--no-print-directory", *words], cwd=ROOT, env=env, stdin=subprocess.DEVNULL).decode()


def check_make(folder, *words):
    said = make(*words)
    print(said, end="")
    with open(os.path.join(ROOT, "README.md"), encoding="utf-8") as file:
        command, answer = re.search(r"^    \$ (echo .*)\n    (.*)$", file.read(), re.M).groups()
    same(said.splitlines()[-2:], [command.replace("| kodliwe", "| %s/kodliwe" % folder), answer])


def check_crates():
    """Looks for a line for each crate in what packaging/prove prints."""
    lines = [line for line in make("--always-make", "--dry-run").splitlines() if line.startswith("packaging/prove ")]
    same(len(lines), 1)


def check_again(*words):
    """Runs `make` again: nothing is proved or built a second time."""
    same(len(make(*words).splitlines()), 2)


def main():
    tally = Tally()
    tally.step("make", check_make, "out/build")
    tally.step("one call proves all", check_crates)
    tally.step("make again", check_again)
    tally.step("make KIT=none", check_make, "out/none/build", "KIT=none")
    tally.step("make KIT=none again", check_again, "KIT=none")
    for path in (KODLIWE, FILTER, ARCHIVE, SHARED):
        tally.step(os.path.basename(path), lambda path=path: built(path) and None)
    return tally.end()


if __name__ == "__main__":
    sys.exit(main())
