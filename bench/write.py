#!/usr/bin/env python3
"""Measures what docs/PERFORMANCE.md has, and writes its tables: `make bench`, or bench/write.py NAME.. for some of them.

A table is between two comments. The first has its name, the sums of the files that it was measured from and of its own lines, the
commit, and the load of the machine. `tests/linters.py` calls `check`: a table that somebody changed by hand is a failure, and one that
is older than its files is named. `make` builds what is measured. RUST_CRATE in the environment is the source of the published crate
rustc-demangle 0.1.28; without it, Debian's is taken.
"""
import hashlib
import os
import re
import subprocess
import sys

ROOT = os.path.dirname(os.path.dirname(os.path.abspath(__file__)))
PAGE = os.path.join(ROOT, "docs", "PERFORMANCE.md")
CARGO = os.path.join(ROOT, "out", "bench", "cargo")
KODLIWE = os.path.join(ROOT, "out", "build", "kodliwe")
CRATE = ["--crate", os.environ["RUST_CRATE"]] if os.environ.get("RUST_CRATE") else []
# Each table: its name, what it is measured from beside the script itself, and its command.
TABLES = [
    ("lines", ["crates", "rust"], ["bench/lines.py", "--cargo", os.path.join(CARGO, "release", "kodliwe")]),
    (
        "rates",
        ["crates"],
        [
            "bench/repeats.py",
            "--size",
            "100",
            "--rounds",
            "3",
            "--no-instructions",
            "--only",
            "profile",
            "--only",
            "plain",
            "--also",
            "c++filt=c++filt",
        ],
    ),
    ("crates", ["crates", "rust"], ["bench/crates.py", *CRATE]),
    ("c", ["crates", "rust"], ["bench/c_speed.py", *CRATE]),
    ("stack", ["crates"], ["bench/stack.py", "--also", "kodliwe=" + KODLIWE]),
    ("hostile", ["crates"], ["bench/hostile.py", "--also", "kodliwe=" + KODLIWE]),
    ("linear", ["crates"], ["bench/linear.py"]),
]
MARKED = re.compile(r"<!-- table (\w+): sources (\w+), lines (\w+), commit (\w+), load ([\d.]+) -->\n(.*?)<!-- end -->\n", re.S)


def run(*words):
    """Returns what a command prints, and shows nothing of it."""
    return subprocess.run(words, cwd=ROOT, stdout=subprocess.PIPE, check=True, encoding="utf-8").stdout


def sum_of(text):
    return hashlib.sha256(text.encode()).hexdigest()[:12]


def sources(folders, command):
    """Returns the sum of a table's files: the sources in these folders, and its script."""
    listed = run(
        "git", "ls-files", "-s", "--", command[0], *("%s/*.%s" % (folder, "rt" if folder == "crates" else "rs") for folder in folders)
    )
    paths = sorted({line.split("\t")[1] for line in listed.splitlines()})
    paths = [path for path in paths if "/tests" not in path and os.path.isfile(os.path.join(ROOT, path))]
    sums = []
    for path in paths:
        with open(os.path.join(ROOT, path), encoding="utf-8") as file:
            sums.append("%s %s" % (path, sum_of(file.read())))
    return sum_of("\n".join(sums))


def is_here(commit):
    """Returns whether the repository has this commit."""
    return not subprocess.run(["git", "cat-file", "-e", commit + "^{commit}"], cwd=ROOT, stderr=subprocess.DEVNULL).returncode


def check():
    """Returns the names of the tables that are older than their files, or whose commit is not in the repository. Fails if a table is
    missing or not as it was written."""
    with open(PAGE, encoding="utf-8") as file:
        found = {match[1]: match for match in MARKED.finditer(file.read())}
    older = []
    for name, folders, command in TABLES:
        assert name in found, "docs/PERFORMANCE.md has no table %s" % name
        assert found[name][3] == sum_of(found[name][6]), "docs/PERFORMANCE.md: the table %s is not as `make bench` wrote it" % name
        if found[name][2] != sources(folders, command):
            older.append(name)
        elif not is_here(found[name][4]):
            older.append("%s (no commit %s)" % (name, found[name][4]))
    return older


def measured(name, folders, command):
    """Runs the command of a table, and returns the table with its comments."""
    print("== %s: %s" % (name, " ".join(command)), flush=True)
    said = run(sys.executable, *command)
    lines = "".join(line + "\n" if line.startswith("|") else "\n" for line in said.splitlines() if line.startswith("|") or not line)
    lines = lines.strip("\n") + "\n"
    print(lines, flush=True)
    commit = run("git", "rev-parse", "--short=8", "HEAD").strip()
    return "<!-- table %s: sources %s, lines %s, commit %s, load %.1f -->\n%s<!-- end -->\n" % (
        name,
        sources(folders, command),
        sum_of(lines),
        commit,
        os.getloadavg()[0],
        lines,
    )


def main():
    wanted = sys.argv[1:]
    unknown = set(wanted) - {name for name, _, _ in TABLES}
    if unknown:
        sys.exit("no table %s" % ", ".join(sorted(unknown)))
    manifest = os.path.join(ROOT, "rust", "Cargo.toml")
    subprocess.run(["cargo", "build", "--quiet", "--release", "--manifest-path", manifest, "--target-dir", CARGO], check=True)
    for name, folders, command in TABLES:
        if wanted and name not in wanted:
            continue
        table = measured(name, folders, command)
        with open(PAGE, encoding="utf-8") as file:
            page = file.read()
        changed, count = re.subn(r"<!-- table %s:.*?<!-- end -->\n" % name, lambda _: table, page, flags=re.S)
        if count != 1:
            sys.exit("docs/PERFORMANCE.md has %d places for the table %s" % (count, name))
        with open(PAGE, "w", encoding="utf-8") as file:
            file.write(changed)


if __name__ == "__main__":
    main()
