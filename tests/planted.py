#!/usr/bin/env python3
"""Tests the runner of edits: tries edits whose verdict is known, which are planted in a copy of the crate piece_buffer.

usage: planted.py

tests/planted has the edits. Each has a line `wanted:` with its verdict: `refused`, or the start of what tests/edits.py says of it. They are
tried with others in a run of the prover, and each alone too. It needs the library of the crate, which `rt ci` or `make` leaves in
crates/piece_buffer/out. The last line is 'N passed, N failed'.
"""
import glob
import os
import re
import shutil
import subprocess
import sys
import tempfile

from common import ROOT, Tally, built, run, same

CRATE = "piece_buffer"
PLANTED = os.path.join(ROOT, "tests", "planted")
AUTHOR = ["git", "-c", "user.name=planted", "-c", "user.email=planted@localhost"]
FAILED = re.compile(r"FAILED %s/(\w+): (.*)" % CRATE)


def verdicts_wanted():
    """Returns the verdict that each planted edit has to get."""
    found = {}
    for file in sorted(os.listdir(PLANTED)):
        with open(os.path.join(PLANTED, file), encoding="utf-8") as text:
            found[file.removesuffix(".edit")] = re.search(r"^wanted: (.*)$", text.read(), re.M)[1]
    return found


def make_checkout(folder):
    """Makes a checkout in a folder, with the runner and the crate, whose edits are the planted ones."""
    tests, crate = os.path.join(folder, "tests"), os.path.join(folder, "crates", CRATE)
    os.makedirs(tests)
    for file in ("common.py", *glob.glob("edits*.py", root_dir=os.path.join(ROOT, "tests"))):
        shutil.copy(os.path.join(ROOT, "tests", file), tests)
    shutil.copytree(os.path.join(ROOT, "crates", CRATE), crate, ignore=shutil.ignore_patterns("edits", "out"))
    shutil.copytree(built(os.path.join(ROOT, "crates", CRATE, "out", "rlib")), os.path.join(crate, "out", "rlib"))
    shutil.copytree(PLANTED, os.path.join(crate, "edits"))
    with open(os.path.join(folder, "crates.txt"), "w", encoding="utf-8") as file:
        file.write("%s:\n" % CRATE)
    # The runner draws its sample by a commit.
    run(["git", "init", "--quiet"], cwd=folder)
    run([*AUTHOR, "commit", "--quiet", "--allow-empty", "--message", "planted"], cwd=folder)


def verdicts_of(folder, *flags):
    """Returns what the runner says of each edit of a checkout that fails, and its last line."""
    ran = subprocess.run(
        [sys.executable, os.path.join(folder, "tests", "edits.py"), *flags], stdin=subprocess.DEVNULL, stdout=subprocess.PIPE, check=False
    )
    lines = ran.stdout.decode().splitlines()
    assert ran.returncode == 1, "status %d: %s" % (ran.returncode, lines[-1:])
    return dict(found.groups() for line in lines if (found := FAILED.match(line))), lines[-1]


def check_verdict(found, wanted):
    """Compares the verdict on an edit, which is None if it was refused as it should be."""
    if wanted == "refused":
        same(found, None)
    else:
        assert found and found.startswith(wanted), "found %r, wanted %r" % (found, wanted)


def check_texts(folder, wanted):
    """Reads the edits without a try: those that can't be applied or read are named."""
    found, _ = verdicts_of(folder)
    same({name for name in found}, {name for name, verdict in wanted.items() if re.match("BAD EDIT: (?!it does not compile|$)", verdict)})


def main():
    tally, wanted = Tally(sys.argv[1:]), verdicts_wanted()
    with tempfile.TemporaryDirectory(prefix="planted-") as folder:
        make_checkout(folder)
        tally.step("texts", check_texts, folder, wanted)
        found, last = verdicts_of(folder, "--try", "--sample", "100")
        for name, verdict in wanted.items():
            tally.step(name, check_verdict, found.get(name), verdict)
        bad = sum(verdict != "refused" for verdict in wanted.values())
        tally.step("last line", same, last, "%d passed, %d failed" % (len(wanted) - bad, bad))
    return tally.end()


if __name__ == "__main__":
    sys.exit(main())
