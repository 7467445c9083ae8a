#!/usr/bin/env python3
"""Gives a first verdict on a change within minutes: make quick.

usage: quick.py [--base COMMIT] [--list]

It prints a line for each of these, in two lanes that run side by side:

  linters    tests/linters.py
  same       rust/ is what packaging/crate makes of the source
  build      cargo build --release
  tests      cargo test: the tests in Rattle, erased, and the crate's own
  program    tests/program.py over what cargo built
  check X    rt check of each crate X that changed since the last verdict, the lower crates first
  test X     rt test of it, if it has tests
  edits X    tests/edits.py: the edits of it that changed since a commit, and those of functions that did

The last verdict is out/verdict. tests/run writes it when the suites `gate` and `edits` pass: a sum of each crate's src/, specs/,
proofs/ and c/ and of its line of crates.txt. Without that file, and with --base, the crates are compared with a commit. It is
the last one that the branch main has too, since main has only what the gate passed. Functions and edits are always compared with it.
--list only prints the crates that changed.

It is no verdict. It takes from out/ what earlier checks proved. It builds no library for C. It does not check the crates above those that
changed, whose proofs may fail if a contract or a definition is another; it names them. `make test` does it all. What each part
printed is in out/quick. The last line is 'N passed, N failed'.
"""
import argparse
import glob
import hashlib
import os
import re
import subprocess
import sys
import threading
import time

from common import ROOT, run

VERDICT = os.path.join(ROOT, "out", "verdict")
LOGS = os.path.join(ROOT, "out", "quick")
# Where tests/rust_common.py lets cargo build.
CARGO = os.path.join(ROOT, "out", "crate", "target")
READ = re.compile(r"crates/(\w+)/(?:src|specs|proofs|c)/")


def blob(place):
    """Returns the name that git gives to a file's bytes."""
    with open(place, "rb") as file:
        data = file.read()
    return hashlib.sha1(b"blob %d\0" % len(data) + data).hexdigest()


def files_here():
    """Yields the path and the git name of each file of the crates, as they are now."""
    for path in run(["git", "ls-files", "-z", "--cached", "--others", "--exclude-standard", "--", "crates"], cwd=ROOT).decode().split("\0"):
        if READ.match(path) and os.path.isfile(os.path.join(ROOT, path)):
            yield path, blob(os.path.join(ROOT, path))


def files_of(commit):
    """Yields the path and the git name of each file of the crates, as a commit has them."""
    for entry in run(["git", "ls-tree", "-r", "-z", commit, "--", "crates"], cwd=ROOT).decode().split("\0"):
        name, _, path = entry.partition("\t")
        if READ.match(path):
            yield path, name.split()[2]


def lines_of(text):
    """Returns the line of each crate in a text of crates.txt."""
    lines = [line for line in text.splitlines() if ":" in line and not line.startswith("#")]
    return {line.replace(":", " ").split()[0]: line for line in lines}


def sums(files, text):
    """Returns a sum of each crate: of its files, and of its line of crates.txt."""
    found = {crate: [line] for crate, line in lines_of(text).items()}
    for path, name in sorted(files):
        found.setdefault(READ.match(path)[1], []).append("%s %s" % (path, name))
    return {crate: hashlib.sha256("\n".join(lines).encode()).hexdigest() for crate, lines in found.items()}


def sums_here():
    """Returns the sum of each crate as it is now."""
    with open(os.path.join(ROOT, "crates.txt"), encoding="utf-8") as file:
        return sums(files_here(), file.read())


def write_verdict(passed):
    """Writes down these sums as those that the gate passed."""
    os.makedirs(os.path.dirname(VERDICT), exist_ok=True)
    with open(VERDICT, "w", encoding="utf-8") as file:
        file.writelines("%s %s\n" % (sum_, crate) for crate, sum_ in sorted(passed.items()))


def last_commit():
    """Returns the last commit that main has too, or else HEAD."""
    for branch in ("main", "origin/main"):
        ran = subprocess.run(["git", "merge-base", "HEAD", branch], cwd=ROOT, stdout=subprocess.PIPE, stderr=subprocess.DEVNULL)
        if ran.returncode == 0:
            return ran.stdout.decode().strip()
    return "HEAD"


def passed_sums(commit):
    """Returns the sums of the last verdict, and what it was read from."""
    if commit is None and os.path.exists(VERDICT):
        with open(VERDICT, encoding="utf-8") as file:
            return {crate: sum_ for sum_, crate in map(str.split, file)}, "out/verdict"
    commit = commit or last_commit()
    text = run(["git", "show", commit + ":crates.txt"], cwd=ROOT).decode()
    return sums(files_of(commit), text), run(["git", "log", "-1", "--format=%h %s", commit], cwd=ROOT).decode().strip()


def below():
    """Returns the crates below each crate, by crates.txt."""
    with open(os.path.join(ROOT, "crates.txt"), encoding="utf-8") as file:
        lines = lines_of(file.read())
    direct = {crate: [word for word in line.split(":")[1].split() if word in lines] for crate, line in lines.items()}
    found = {}

    def of(crate):
        if crate not in found:
            found[crate] = {other for word in direct[crate] for other in {word, *of(word)}}
        return found[crate]

    return {crate: of(crate) for crate in direct}


def has_tests(crate):
    """Returns whether a crate has a test in Rattle."""
    for place in glob.glob(os.path.join(ROOT, "crates", crate, "src", "**", "*.rt"), recursive=True):
        with open(place, encoding="utf-8") as file:
            if re.search(r"^ *#\[test\]$", file.read(), re.M):
                return True
    return False


class Steps:
    """Runs the steps, prints a line for each as it ends, and counts them."""

    def __init__(self):
        self.passed = self.failed = 0
        self.printing = threading.Lock()

    def step(self, name, command, folder=ROOT, **variables):
        """Runs a command, and returns whether its status was 0. Its output is in out/quick."""
        log, began = os.path.join(LOGS, name.replace(" ", "-") + ".txt"), time.monotonic()
        with open(log, "wb") as file:
            try:
                how = {"cwd": folder, "env": dict(os.environ, **variables), "stdin": subprocess.DEVNULL}
                status = subprocess.run(command, stdout=file, stderr=subprocess.STDOUT, **how).returncode
            except OSError as error:
                file.write(("%s does not start: %s\n" % (command[0], error.strerror)).encode())
                status = 2
        with self.printing:
            is_well = status == 0
            self.passed, self.failed = self.passed + is_well, self.failed + (not is_well)
            print("%-28s %4.0f s  %s" % (name, time.monotonic() - began, "ok" if is_well else "FAILED"), flush=True)
            if not is_well:
                with open(log, encoding="utf-8", errors="replace") as file:
                    print("".join("    " + line for line in file.read().splitlines(True)[-25:]), flush=True)
        return is_well

    def prove(self, crates, commit):
        """Checks these crates, proves and runs their tests, and tries the edits that changed since a commit or whose functions did."""
        for crate in crates:
            folder = os.path.join(ROOT, "crates", crate)
            is_proved = self.step("check " + crate, ["rt", "check"], folder)
            if is_proved and has_tests(crate):
                self.step("test " + crate, ["rt", "test"], folder)
            if is_proved and glob.glob(os.path.join(folder, "edits", "*.edit")):
                self.step("edits " + crate, ["tests/edits.py", "--try", "--since", commit, crate])

    def build(self):
        """Reads the sources, and tries the Rust crate and its program."""
        self.step("linters", ["tests/linters.py"])
        if self.step("same", ["tests/crate.py", "same"]):
            rust, cargo = os.path.join(ROOT, "rust"), {"CARGO_TARGET_DIR": CARGO, "CARGO_NET_OFFLINE": "true", "CARGO_TERM_COLOR": "never"}
            is_built = self.step("build", ["cargo", "build", "--release"], rust, **cargo)
            self.step("tests", ["cargo", "test", "--workspace", "--all-features", "--no-fail-fast"], rust, **cargo)
            if is_built:
                self.step("program", ["tests/program.py"], PROGRAMS="cargo=" + os.path.join(CARGO, "release", "kodliwe"))


def main():
    parser = argparse.ArgumentParser(description=__doc__, formatter_class=argparse.RawDescriptionHelpFormatter)
    parser.add_argument("--base", help="the commit that the crates are compared with")
    parser.add_argument("--list", action="store_true", help="only print the crates that changed")
    options = parser.parse_args()
    (was, base), now, lower = passed_sums(options.base), sums_here(), below()
    changed = sorted(
        (crate for crate in now if crate in lower and now[crate] != was.get(crate)), key=lambda crate: (len(lower[crate]), crate)
    )
    above = sorted(crate for crate in lower if crate not in changed and lower[crate] & {*changed})
    print("changed since %s: %s" % (base, " ".join(changed) or "no crate"))
    print("not checked, above them: %s" % (" ".join(above) or "no crate"), flush=True)
    if options.list:
        return 0
    os.makedirs(LOGS, exist_ok=True)
    steps, began = Steps(), time.monotonic()
    proving = threading.Thread(target=steps.prove, args=[changed, options.base or last_commit()])
    proving.start()
    steps.build()
    proving.join()
    print("%.1f minutes" % ((time.monotonic() - began) / 60))
    print("%d passed, %d failed" % (steps.passed, steps.failed))
    return 1 if steps.failed else 0


if __name__ == "__main__":
    sys.exit(main())
