#!/usr/bin/env python3
"""Measures the library for C, alone, through Python, and next to the Rust crate, and prints a table.

The library is the proved one that `make` built, and the tested one of `make KIT=none`, or that of --library. The rows are these:

- instructions of a call (`valgrind --tool=callgrind`, three iterations less one) for the real legacy and v0 symbols. One Rust program calls
  the library and the published crate, and for real symbols both have to return the same, with the hash and without it;
- the sizes of the archive and of the shared library;
- the processor time of 100,000 calls for real symbols through bindings/python;
- the longest call for a hostile tree whose output and limit are 4,096 bytes;
- the same call for a symbol of 10,102 bytes, whose references make the printer read an impl path again and again.

The published crate is Debian's, or that of --crate.
"""
import argparse, glob, os, re, shutil, sys, tempfile

from measuring import ROOT, instructions, need_rust_crate
from common import INCLUDE, Library, add_libraries, run, same, tool
from hostile_texts import nested
from texts import NO_LIMIT, REAL, record, stored, trees

HERE = os.path.join(ROOT, "bench", "c_speed")
DEBIAN = "/usr/share/cargo/registry"
SPEED = """
import sys, time, kodliwe
texts = [line.decode() for line in open(sys.argv[1], 'rb').read().split(b'\\n')[:-1]]
texts = (texts * (100_000 // len(texts) + 1))[:100_000]
best = 1e9
for _ in range(5):
    began = time.process_time()
    for text in texts:
        kodliwe.demangle(text)
    best = min(best, time.process_time() - began)
print('%.2f' % best)
"""


def python(folder, library, symbols):
    real = os.path.join(folder, "real")
    with open(real, "wb") as file:
        file.write(b"".join(symbol + b"\n" for _, start, end in REAL for symbol in symbols[start:end]))
    env = dict(os.environ, KODLIWE_LIB=library.shared, PYTHONPATH=os.path.join(ROOT, "bindings", "python"), PYTHONDONTWRITEBYTECODE="1")
    return run([sys.executable, "-c", SPEED, real], env=env).decode().strip()


def longest(folder, library, symbols):
    """Returns the milliseconds of the longest call for one of these symbols."""
    program = os.path.join(folder, "times")
    run([tool("gcc"), "-O1", "-I", INCLUDE, os.path.join(HERE, "times.c"), library.archive, "-o", program])
    said = run([program], input=b"".join(map(record, symbols))).decode()
    return re.search(r"the longest call ([\d.]+) ms", said)[1]


def rust_program(folder, library, crate):
    """Returns a program that has both libraries."""
    project = os.path.join(folder, "rust_calls")
    os.makedirs(os.path.join(project, "src"))
    shutil.copy(os.path.join(HERE, "rust_calls.rs"), os.path.join(project, "src", "main.rs"))
    with open(os.path.join(project, "Cargo.toml"), "w") as manifest:
        manifest.write(
            '[package]\nname = "rust_calls"\nversion = "0.0.0"\nedition = "2021"\n\n[dependencies]\n'
            'rustc-demangle = { path = "%s" }\n\n[profile.release]\ndebug = 1\n\n[workspace]\n' % os.path.abspath(crate)
        )
    env = dict(os.environ, CARGO_TARGET_DIR=os.path.join(folder, "target"), CARGO_NET_OFFLINE="true")
    env["RUSTFLAGS"] = "-L native=%s -l static=kodliwe" % library.folder
    run([tool("cargo"), "build", "--release", "--manifest-path", os.path.join(project, "Cargo.toml")], env=env)
    return os.path.join(folder, "target", "release", "rust_calls")


def call_instructions(program, which, symbols):
    text = b"".join(map(record, symbols))
    few, many = (instructions([program, which, turns], text) for turns in ("1", "3"))
    return (many - few) // (2 * len(symbols))


def check_real(program, symbols):
    """Fails if the published crate returns another path for a real symbol, with the hash or without it."""
    real = [symbol for _, start, end in REAL for symbol in symbols[start:end]]
    *differ, last = run([program, "both", "1"], input=b"".join(map(record, real))).decode().splitlines()
    assert not differ, "%d of the paths of %d real symbols differ, the first %s" % (len(differ), len(real), differ[0])
    same(last, "compared %d" % (2 * len(real)))


def rows_of(folder, library, crate, symbols):
    """Yields what is measured of a library, and the figures of the library and of the crate, if it has one."""
    program = rust_program(folder, library, crate)
    check_real(program, symbols)
    for name, start, end in REAL:
        ours, theirs = (call_instructions(program, which, symbols[start:end]) for which in ("kodliwe", "crate"))
        yield "instructions a call, %d real %s symbols" % (end - start, name), "{:,}".format(ours), "{:,}".format(theirs)
    yield "bytes of the archive", "{:,}".format(os.path.getsize(library.archive)), ""
    yield "bytes of the shared library", "{:,}".format(os.path.getsize(library.shared)), ""
    yield "seconds, 100,000 calls through Python", python(folder, library, symbols), ""
    yield "milliseconds, the longest call for a hostile tree", longest(folder, library, trees()), ""
    long = nested("MIC0%sEC0" % ("h" * 10_000), 18).encode()
    yield "milliseconds, the same for a symbol of {:,} bytes".format(len(long)), longest(folder, library, [long]), ""


def main():
    parser = argparse.ArgumentParser(description=__doc__, formatter_class=argparse.RawDescriptionHelpFormatter)
    parser.add_argument("--crate", metavar="PATH", help="the source of the published crate rustc-demangle")
    add_libraries(parser)
    options = parser.parse_args()
    crate = options.crate or max(glob.glob(os.path.join(DEBIAN, "rustc-demangle-[0-9]*")), default=DEBIAN)
    need_rust_crate(crate)
    symbols = [symbol for symbol, limit, _ in stored() if limit == NO_LIMIT]
    kinds, table = [options.library] if options.library else Library.KINDS, {}
    for library in map(Library, kinds):
        library.made()
        with tempfile.TemporaryDirectory() as folder:
            for what, ours, theirs in rows_of(folder, library, crate, symbols):
                # The crate's figure is that beside the last library.
                row = table.setdefault(what, {})
                row[library.kind], row["crate"] = ours, theirs
    print("| from C | %s | published crate |" % " | ".join(kinds))
    print("| --- |" + " ---: |" * (len(kinds) + 1))
    for what, row in table.items():
        print("| %s | %s | %s |" % (what, " | ".join(row[kind] for kind in kinds), row["crate"]))


if __name__ == "__main__":
    main()
