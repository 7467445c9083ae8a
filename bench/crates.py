#!/usr/bin/env python3
"""Measures the Rust crate that is made from the source, the published crate and the proved archive.

It builds one program with all three, by `rust/`'s release profile, and prints three tables. The first has instructions, counted by
`valgrind --tool=callgrind`, three rounds less one: of `try_demangle`, and of `try_demangle` and then `{}`, for a v0 symbol of the Rust
compiler's library and for a real legacy symbol of the corpus, and of `demangle_stream` for a line of a log. The archive's calls are
`kodliwe_is_symbol`, `kodliwe_demangle` and `kodliwe_demangle_text`. The second has the nanoseconds of `try_demangle` and then `{}` over
40,000 v0 symbols. The third has what a program costs that prints a path by `{:#}`, built by cargo's own profiles: the processor seconds of
building it with its library, and the kilobytes of the stripped program above one that prints its arguments unchanged.

Without --crate the published crate is that of Debian's package librust-rustc-demangle-dev, which has no streams. `make` builds the archive.
"""
import argparse
import glob
import os
import resource
import shutil
import subprocess
import sys

from measuring import ROOT, need_rust_crate, need_valgrind
from common import ARCHIVE, built, instructions
from texts import NO_LIMIT, REAL, made_lines, stored
import rust_clients

NAMES = {"theirs": "published crate", "ours": "erased crate", "archive": "proved archive"}
ROUNDS = 15
BUILDS = 3


def program(crate):
    """Builds the program that has all three, and returns its path."""
    rust_clients.OPTIONS.crate = crate
    os.makedirs(rust_clients.WORK, exist_ok=True)
    flags = "-L native=%s -l static=kodliwe" % os.path.dirname(built(ARCHIVE))
    # An archive that was built again is linked again.
    flags += ' --cfg archive="%d"' % os.stat(ARCHIVE).st_mtime
    if rust_clients.has_streams():
        flags += " --cfg streams"
    return rust_clients.calls_program("three", os.path.join(ROOT, "bench", "crates", "three.rs"), RUSTFLAGS=flags)


def counted(command, job, text, count):
    """Returns the instructions for one of that many symbols or lines."""
    by = {}
    for which in NAMES:
        if job == "text" and which == "theirs" and not rust_clients.has_streams():
            continue
        few, many = (instructions([command, job, which, rounds], text) for rounds in ("1", "3"))
        by[which] = (many - few) // (2 * count)
    return by


def row(name, by, form):
    """Prints a row of a table. The last column is the share of the published crate's figure that the erased crate takes."""
    cells = [form.format(by[which]) if which in by else "-" for which in NAMES]
    share = "%.3f" % (by["ours"] / by["theirs"]) if "theirs" in by else "-"
    print("| %s | %s | %s |" % (name, " | ".join(cells), share), flush=True)


def head(what):
    print("| %s | %s | erased to published |" % (what, " | ".join(NAMES.values())))
    print("| --- |" + " ---: |" * (len(NAMES) + 1), flush=True)


def cost(which, library, profile):
    """Builds the program of prints.rs anew, and returns the seconds that it took and the program's size."""
    dependency = f'[dependencies]\nlibrary = {{ package = "rustc-demangle", path = "{library}" }}\n' if library else ""
    source = os.path.join(ROOT, "bench", "crates", "prints.rs")
    place = rust_clients.folder(f"prints_{which}", f'edition = "2021"\n\n[[bin]]\nname = "prints"\npath = "{source}"\n\n{dependency}')
    target = os.path.join(place, "target")
    best = None
    for _ in range(BUILDS):
        shutil.rmtree(target, ignore_errors=True)
        before = resource.getrusage(resource.RUSAGE_CHILDREN).ru_utime
        words = ["build", "--release"] if profile == "release" else ["build"]
        rust_clients.common.cargo(place, *words, target=target, RUSTFLAGS="--cfg library" if library else "")
        took = resource.getrusage(resource.RUSAGE_CHILDREN).ru_utime - before
        best = took if best is None else min(best, took)
    built_program = os.path.join(target, "release" if profile == "release" else "debug", "prints")
    subprocess.run(["strip", built_program], check=True)
    return best, os.path.getsize(built_program)


def costs(crate):
    """Prints the table of what a program that prints a path costs."""
    libraries = {"theirs": crate, "ours": rust_clients.OURS, "none": None}
    found = {which: {profile: cost(which, library, profile) for profile in ("dev", "release")} for which, library in libraries.items()}
    head("a program with {:#}")
    for profile in ("dev", "release"):
        row(profile + " build, seconds", {which: found[which][profile][0] for which in ("theirs", "ours")}, "{:.1f}")
    base = found["none"]["release"][1]
    row("stripped, KB above none", {which: (found[which]["release"][1] - base) / 1024 for which in ("theirs", "ours")}, "{:.0f}")


def main():
    parser = argparse.ArgumentParser(description=__doc__, formatter_class=argparse.RawDescriptionHelpFormatter)
    parser.add_argument("--crate", metavar="PATH", help="the source of the published crate rustc-demangle")
    crate = parser.parse_args().crate
    if crate is None:
        crate = max(glob.glob(os.path.join(rust_clients.DEBIAN, "rustc-demangle-[0-9]*")), default=rust_clients.DEBIAN)
    need_rust_crate(crate)
    need_valgrind()
    command = program(crate)
    v0 = [symbol.encode() for symbol in rust_clients.v0_symbols()]
    symbols = [symbol for symbol, limit, _ in stored() if limit == NO_LIMIT]
    real = {name: symbols[start:end] for name, start, end in REAL}
    log = "".join(made_lines(1, "all")).encode()
    print(subprocess.run(["rustc", "--version"], stdout=subprocess.PIPE, encoding="utf-8", check=True).stdout.strip())
    head("instructions")
    for name, found in (("v0", v0[::20]), ("legacy", real["legacy"])):
        for job, what in (("try", "`try_demangle`"), ("path", "and `{}`")):
            told = "%s, %s symbols, %s" % (name, "{:,}".format(len(found)), what)
            row(told, counted(command, job, b"\n".join(found), len(found)), "{:,}")
    lines = log.count(b"\n")
    row("a log, {:,} lines".format(lines), counted(command, "text", log, lines), "{:,}")
    said = subprocess.run([command, "time", str(ROUNDS)], input=b"\n".join(v0), stdout=subprocess.PIPE, check=True).stdout
    print()
    head("nanoseconds")
    times = dict(zip(("ours", "theirs", "archive"), map(float, said.split())))
    row("v0, {:,} symbols".format(len(v0)), times, "{:,.0f}")
    print()
    costs(crate)


if __name__ == "__main__":
    sys.exit(main())
