#!/usr/bin/env python3
"""Compares the Rust crate's table of characters with the kit's crate.

usage: characters.py [STEP..]

  each   the table has the same entry for each of 1,114,112 code points as the kit's crate
  fault  that comparison finds a table with one run less

It needs cargo and the Rattle kit, so it runs when `rt ci` has ended. The other tests of the Rust crate need no kit.
"""

import os
import shutil
import subprocess
import sys

import eraser
import rust_common as common
from common import ROOT, RUST, run
from rust_common import OUT, cargo, check


def letters_of_kit():
    """Returns what the kit's crate says of each code point, by the program of the repository."""
    place = os.path.join(ROOT, "crates", "character_tables")
    run(["rt", "run", "--", "each"], cwd=place, stdin=subprocess.DEVNULL)
    return run([os.path.join(place, "out", "character_tables"), "each"])


def letters_of_crate(rust):
    """Returns what the table of a Rust workspace says of each code point."""
    folder = common.package(
        "characters",
        f'[lib]\nname = "unicode"\npath = "{rust}/kodliwe/src/support/unicode/mod.rs"\n\n'
        f'[[bin]]\nname = "characters"\npath = "{common.HERE}/characters.rs"\n',
    )
    cargo(folder, "build", "--release")
    return run([os.path.join(OUT, "target", "release", "characters")], stdin=subprocess.DEVNULL)


def check_each(rust=RUST):
    theirs = letters_of_kit()
    check(len(theirs) == 0x110000 and len(set(theirs)) > 8, f"{len(theirs)} letters of the kit")
    ours = letters_of_crate(rust)
    wrong = [at for at, (one, other) in enumerate(zip(ours, theirs)) if one != other]
    check(len(ours) == len(theirs) and not wrong, f"{len(wrong)} code points, as U+{wrong[:1]}")
    return f"{len(ours):,} code points are as in the kit's crate"


def check_fault():
    eraser.copy_of_source(eraser.FAULTY, [("crates/character_tables/stdout", "28416, ", "")])
    status, said = eraser.erase_copy(eraser.FAULTY)
    check(status == 0, said)
    check(not eraser.passes(check_each, os.path.join(eraser.FAULTY, "rust")), "a table with one run less is not found")
    shutil.rmtree(eraser.FAULTY)
    return "a table with one run less is found"


CHECKS = [
    ("each", check_each),
    ("fault", check_fault),
]

if __name__ == "__main__":
    os.makedirs(OUT, exist_ok=True)
    sys.exit(common.steps(CHECKS, sys.argv[1:]))
