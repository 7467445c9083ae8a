#!/usr/bin/env python3
"""Reads the sources with the linters of their languages, and needs no build.

It prints a line for each linter. pyproject.toml has the setting of black and flake8; flake8 does not read that file, so it is given
the setting. The Rust crates with a manifest are read by tests/crate.py, and the package by tests/package.py.
The last line is 'N passed, N failed'. A missing tool is a failure.
"""
import glob
import os
import re
import subprocess
import sys
import tempfile

from common import INCLUDE, ROOT, Tally, run, same, tool

SHELL = r"^#!.*\b(?:ba)?sh$"
PYTHON = r"^#!.*\bpython3$"
C_FLAGS = ["-Wall", "-Wextra", "-Wconversion", "-Wshadow", "-Wpedantic", "-Werror", "-fsyntax-only", "-I", INCLUDE]


def sources():
    """Returns the files that git knows or would add, by their paths in the repository."""
    listed = run(["git", "ls-files", "--cached", "--others", "--exclude-standard"], cwd=ROOT).decode().split("\n")
    return sorted(path for path in listed if path and os.path.isfile(os.path.join(ROOT, path)))


def scripts(ending, first_line):
    """Returns the sources with this suffix, and those without a suffix that begin with such a line."""
    found = []
    for path in sources():
        if path.endswith(ending):
            found.append(path)
        elif "." not in os.path.basename(path):
            with open(os.path.join(ROOT, path), encoding="utf-8", errors="replace") as file:
                found += [path] if re.match(first_line, file.readline().rstrip("\n")) else []
    assert found, "no such file"
    return found


def setting(table, key):
    """Returns a value of pyproject.toml, a number or the words of a list."""
    with open(os.path.join(ROOT, "pyproject.toml"), encoding="utf-8") as file:
        text = file.read()
    part = re.search(r"^\[%s\]\n(.*?)(?=^\[|\Z)" % re.escape(table), text, re.M | re.S)[1]
    value = re.search(r"^%s = (.*)$" % re.escape(key), part, re.M)[1]
    return ",".join(re.findall(r"\w+", value))


def check_rustfmt():
    """Reads the files that belong to no crate with a manifest."""
    paths = [path for path in sources() if re.match(r"(?:tests|bench)/.*\.rs$", path)]
    run([tool("rustfmt", "rustfmt"), "--check", "--edition", "2021", *paths], cwd=ROOT)
    return "%d files" % len(paths)


def check_black():
    run([tool("black", "black"), "--check", "--quiet", "--diff", *scripts(".py", PYTHON)], cwd=ROOT)


def check_flake8():
    flags = ["--isolated", "--max-line-length", setting("tool.black", "line-length"), "--ignore", setting("tool.flake8", "ignore")]
    run([tool("flake8", "flake8"), *flags, *scripts(".py", PYTHON)], cwd=ROOT)


def check_mypy():
    with tempfile.TemporaryDirectory() as cache:
        flags = ["--strict", "--no-error-summary", "--cache-dir", cache]
        run([tool("mypy", "mypy"), *flags, "kodliwe.py", "packing.py"], cwd=os.path.join(ROOT, "bindings", "python"))


def check_shell():
    paths = scripts((".sh", ".bash"), SHELL)
    run([tool("shellcheck", "shellcheck"), *paths], cwd=ROOT)
    return "%d files" % len(paths)


def check_node():
    paths = [path for path in sources() if re.match(r"web/.*\.m?js$", path)]
    for path in paths:
        run([tool("node", "nodejs"), "--check", path], cwd=ROOT)
    return "%d files" % len(paths)


def check_man():
    for path in sorted(glob.glob(os.path.join(ROOT, "docs", "*.1"))):
        words = [tool("groff", "groff-base"), "-man", "-Tutf8", "-ww", "-z", path]
        ran = subprocess.run(words, stdout=subprocess.PIPE, stderr=subprocess.PIPE, check=True)
        assert not ran.stderr, ran.stderr.decode()
        run([tool("mandoc", "mandoc"), "-T", "lint", path])


def check_c():
    headers, count = sorted(glob.glob(os.path.join(INCLUDE, "*.h"))), 0
    for path in headers + sorted(glob.glob(os.path.join(ROOT, "examples", "*.c"))):
        # A header is included, since a compiler warns of a header that is a main file.
        text = b'#include "%s"\n' % os.path.relpath(path, INCLUDE).encode()
        for compiler, language, standard in (("gcc", "c", "c11"), ("gcc", "c", "gnu17"), ("g++", "c++", "c++11"), ("g++", "c++", "c++20")):
            run([tool(compiler, compiler), "-x", language, "-std=" + standard, *C_FLAGS, "-"], input=text, cwd=INCLUDE)
            count += 1
    return "%d runs" % count


def check_believed():
    """Compares the list of believed definitions in docs/GUARANTEES.md with the clauses."""
    run([sys.executable, "tests/believed.py"], cwd=ROOT)


def check_edits():
    """Looks for must-fail edits that name no clause."""
    return run([sys.executable, "tests/edits.py"], cwd=ROOT).decode().strip()


def check_embedded():
    """Compares the texts that the program has with docs/kodliwe.1 and completions/."""
    run([sys.executable, "packaging/embed", "--check"], cwd=ROOT)


def check_figures():
    """Compares the tables of docs/PERFORMANCE.md with their sums, and names those that are older than what they measure."""
    sys.path.append(os.path.join(ROOT, "bench"))
    import write

    older = write.check()
    return "older than their sources: %s" % ", ".join(older) if older else "all of today's sources"


def check_rustc():
    """Compares the release of rustc that the documents name with that of each package."""
    named = {}
    for path in ["README.md", "docs/C.md", "docs/CLIENTS.md", "docs/DECISIONS.md", "bindings/python/README.md"]:
        with open(os.path.join(ROOT, path), encoding="utf-8") as file:
            named[path] = set(re.findall(r"(?:rustc|Rust) (1\.\d+)", file.read()))
    for path in sorted(glob.glob(os.path.join(ROOT, "rust", "*", "Cargo.toml"))):
        with open(path, encoding="utf-8") as file:
            named[os.path.relpath(path, ROOT)] = set(re.findall(r'^rust-version = "(.*)"$', file.read(), re.M))
    releases = set.union(*named.values())
    assert len(releases) == 1 and all(named.values()), named
    return "%s in %d files" % (*releases, len(named))


# How many new counts of looks each function makes. Work on a new count is in no bound.
NEW_COUNTS = {
    "demangle_c_string/src/lib.rt": {"write_text": 1, "write_folded_text": 1},
    "demangle_symbol/src/cursor/looks.rt": {"new": 2},
    "demangle_v0_parser/src/parse.rt": {"at_path": 1, "in_larger_stack": 1},
    "demangle_value/src/lib.rt": {"demangle": 1, "try_demangle": 1},
    "demangle_value/src/value/printing.rt": {"write_formatted": 1, "write_limited": 1, "write_folded": 1, "write_pieces_with_path_len": 1},
    "kodliwe_program/src/filtering.rt": {"write_parts": 1, "filter_all": 1},
    "rustc_demangle/src/slice.rt": {"demangle_slice_formatted": 1},
    "rustc_demangle/src/stream/bytes.rt": {"step": 1, "demangle_bytes_formatted": 1},
    "rustc_demangle/src/text.rt": {"put_text": 1},
}
# Crates that only test or measure.
TESTING = (
    "call_tests",
    "corpus_program",
    "corpus_tests",
    "demangle_calls",
    "demangle_corpus",
    "demangle_vectors",
    "fault_tests",
    "filter_program_tests",
    "filter_tests",
    "format_tests",
    "kodliwe_tests",
    "limit_tests",
    "test_doubles",
)


def new_counts(path):
    """Returns how many new counts each function of a file makes."""
    found, name = {}, ""
    with open(path, encoding="utf-8") as file:
        for line in file:
            code = line.split("//")[0]
            name = (re.findall(r"\bfn (\w+)", code) or [name])[-1]
            for _ in re.findall(r"\b(?:Run)?Looks::new\(\)", code):
                found[name] = found.get(name, 0) + 1
    return found


def check_counts():
    """Compares the functions that make a new count of looks with those of NEW_COUNTS, which docs/DESIGN.md names."""
    found = {}
    for path in sources():
        inside = re.fullmatch(r"crates/((\w+)/src/.*\.rt)", path)
        if inside and inside[2] not in TESTING and not re.search(r"/tests(?:/|\.rt$)", path):
            counts = new_counts(os.path.join(ROOT, path))
            found.update({inside[1]: counts} if counts else {})
    same(found, NEW_COUNTS)
    with open(os.path.join(ROOT, "docs", "DESIGN.md"), encoding="utf-8") as file:
        part = re.search(r"`grep -rn Looks::new .*?\n\n(.*?)\n\n##", file.read(), re.S)[1]
    unnamed = [name for counts in NEW_COUNTS.values() for name in counts if "`%s`" % name not in part]
    assert not unnamed, "docs/DESIGN.md does not name %s" % ", ".join(unnamed)
    return "%d in %d functions" % (sum(map(sum, map(dict.values, found.values()))), sum(map(len, found.values())))


def main():
    tally = Tally(sys.argv[1:])
    tally.step("rustfmt", check_rustfmt)
    tally.step("black", check_black)
    tally.step("flake8", check_flake8)
    tally.step("mypy --strict", check_mypy)
    tally.step("shellcheck", check_shell)
    tally.step("node --check", check_node)
    tally.step("manuals", check_man)
    tally.step("gcc, g++", check_c)
    tally.step("believed definitions", check_believed)
    tally.step("clauses of edits", check_edits)
    tally.step("new counts of looks", check_counts)
    tally.step("release of rustc", check_rustc)
    tally.step("embedded texts", check_embedded)
    tally.step("measured tables", check_figures)
    return tally.end()


if __name__ == "__main__":
    sys.exit(main())
