#!/usr/bin/env python3
"""Tries the edits of the code, each a mistake that the prover has to refuse in the clause that the edit names.

usage: edits.py                               only reads the edits, and lists those that can't be right
       edits.py --try [--gate FILE] [CRATE..] tries those of all crates, or of some

An edit is a file crates/NAME/edits/*.edit (tests/README.md). Without --try it fails if it has no line `clause:` or more than one, if its
crate has no such function, if no contract of the repository has such a clause, or if an `old:` text is not in its file exactly once.

With --try each edit has one of these ends, and all but the first are failures, of which a line is printed:

  refused       the function is not proved, and the first goal that fails in it is of the clause
  refused by    another function or clause refuses it first
  NOT REFUSED   the crate is still proved with it
  BAD EDIT      it can't be applied, or what it makes can't be read or compiled
  NOT TRIED     the gate did not prove the crate, or the prover ended early

Several edits are tried in one run of the prover (tests/edits_trial.py says how, and why that shows the same). It reads the libraries of
crates/*/out/rlib that `rt ci` proved in this checkout. `make` makes them too. With --gate the edits of a crate begin when FILE, which
`rt ci` is writing, says that the crate is proved. All processors are taken once it says that the gate ended.

With --alone each edit is tried by itself, over its whole crate, which takes three times as long. With --sample 5, so many of a hundred are
tried both ways, and fail if the ends differ. Which they are is drawn by the hash of the commit, so each commit draws others. With --since
COMMIT only those are tried that were changed since, or whose functions were. A line of a failure begins with `FAILED`. The last line is
'N passed, N failed'.
"""
import argparse
import hashlib
import os
import re
import sys
import tempfile
import threading
import time
from concurrent import futures

from common import ROOT, run
from edits_file import BadEdit, Edit, names_in
from edits_prover import Crates
from edits_since import edits_since
from edits_source import Source, read
from edits_trial import Trial

CLAUSES = re.compile(r"^ *(?:ensures|requires|invariant|ghost) (\w+) (?:\{|=|:)", re.M)
# Clauses without a name: tests/README.md says of what.
UNNAMED = ("ensures", "loop", "invariant", "call")
# What `rt ci` says of a crate, and its last line; tests/run writes ENDED after it.
PROVED, OTHER = re.compile(r"rt: (\w+)(?: proved| is kept: .*)"), re.compile(r"rt: (\w+) NOT PROVED.*")
ENDED = "the gate ended"
# The memory that has to be free before a run of the prover begins, in KB. The largest one takes 4 GB.
FREE = 5 << 20
PROCESSORS = len(os.sched_getaffinity(0))


def wrong_names(edit, clauses):
    """Returns what is wrong with the function and the clause that an edit names, or with what it takes away, or None."""
    function, clause = edit.clause
    if not edit.named:
        return "the crate has no function `%s`" % function
    if clause not in clauses:
        return "no contract has a clause `%s`" % clause
    lost = edit.lost_calls()
    return "it takes away the call of `%s`, which a proof of its function names" % lost[0] if lost else None


def check_texts(crates):
    """Yields each edit, as CRATE/NAME, and what is wrong with its text, or None."""
    sources = {name: Source(crates.folder(name), crates.library(name)) for name in crates.uses}
    clauses = {*UNNAMED}.union(*(CLAUSES.findall(text) for source in sources.values() for text in source.texts.values()))
    for crate, source in sources.items():
        for name in names_in(source.folder):
            try:
                wrong = wrong_names(Edit(source, name), clauses)
            except BadEdit as error:
                wrong = str(error)
            yield "%s/%s" % (crate, name), wrong


class Gate:
    """Knows which crates are proved: from what `rt ci` is writing, or by the libraries that are there."""

    def __init__(self, path):
        self.path = path

    def proves(self, crate):
        """Waits until the gate has judged a crate, and returns whether it is proved."""
        while self.path and os.path.exists(self.path):
            lines = read(self.path).splitlines()
            if any((found := PROVED.fullmatch(line)) and found[1] == crate for line in lines):
                return True
            if ENDED in lines or any((found := OTHER.fullmatch(line)) and found[1] == crate for line in lines):
                return False
            time.sleep(5)
        return True

    def wait(self):
        """Waits until the gate has ended."""
        while self.path and os.path.exists(self.path) and ENDED not in read(self.path).splitlines():
            time.sleep(5)


def drawn(commit, crate, edit):
    """Returns the number of an edit from 0 to 99, which is another one for another commit."""
    return int(hashlib.sha256(("%s %s/%s" % (commit, crate, edit)).encode()).hexdigest(), 16) % 100


def wait_for_memory():
    """Waits until there is memory for a run of the prover, at most some minutes."""
    for _ in range(60):
        free = int(re.search(r"^MemAvailable: +(\d+) kB$", read("/proc/meminfo"), re.M)[1])
        if free >= FREE:
            return
        time.sleep(5)


class Tries:
    """Tries the edits of crates side by side, so many runs of the prover at once, and counts what passed and failed."""

    def __init__(self, options, room):
        self.options, self.room, self.gate = options, room, Gate(options.gate)
        self.crates = Crates(os.path.join(room, "libraries"))
        self.turn, self.printing = threading.Semaphore(options.jobs), threading.Lock()
        self.commit = run(["git", "rev-parse", "HEAD"], cwd=ROOT).decode().strip() if options.sample else ""
        self.passed = self.failed = 0
        if options.gate:
            threading.Thread(target=self.take_all_processors, daemon=True).start()

    def take_all_processors(self):
        """Lets as many runs of the prover begin as there are processors, once the gate has ended."""
        self.gate.wait()
        for _ in range(PROCESSORS - self.options.jobs):
            self.turn.release()

    def tell(self, text):
        with self.printing:
            print(text, flush=True)

    def in_turn(self, call, edits):
        """Tries edits when it is their turn."""
        with self.turn:
            wait_for_memory()
            call(edits)

    def try_crate(self, name):
        """Tries the edits of a crate once it is proved: first those of one run, whose lemmas serve the others."""
        names = names_in(self.crates.folder(name))
        if not self.gate.proves(name):
            return self.count(name, dict.fromkeys(names, "NOT TRIED: the gate did not prove the crate"))
        lacking = self.crates.take(name)
        if lacking:
            return self.count(name, dict.fromkeys(names, "NOT TRIED: no library %s: `rt ci` or `make` makes it" % lacking[0]))
        trial = Trial(self.crates, name, self.room, self.tell)
        if self.options.since:
            trial.edits = edits_since(trial.source, trial.edits, self.options.since)
            names = [edit.name for edit in trial.edits] + list(trial.verdicts)
        runs = trial.runs(self.options.alone)
        for call, edits in runs[:1]:
            self.in_turn(call, edits)
        trial.begun = True
        with futures.ThreadPoolExecutor(PROCESSORS) as pool:
            list(pool.map(lambda run: self.in_turn(*run), runs[1:]))
            list(pool.map(lambda edit: self.compare(trial, edit), self.sample(trial)))
        self.tell("%s: %d edits in %d runs, %.0f seconds of processor" % (name, len(names), len(runs), trial.seconds))
        self.count(name, {edit: trial.verdicts.get(edit, "NOT TRIED") for edit in names})

    def sample(self, trial):
        """Returns the edits of a crate that are drawn to be tried alone too, --sample of a hundred, without those that were."""
        return [
            edit for edit in trial.edits if edit.name not in trial.lone and drawn(self.commit, trial.name, edit.name) < self.options.sample
        ]

    def compare(self, trial, edit):
        """Tries an edit by itself, and fails if that ends in another way than a run with others."""
        before = trial.verdicts.get(edit.name)
        self.in_turn(trial.alone, [edit])
        after = trial.verdicts[edit.name]
        if bool(before) != bool(after):
            trial.verdicts[edit.name] = "with others: %s; alone: %s" % (before or "refused", after or "refused")

    def count(self, crate, verdicts):
        """Counts the verdicts on a crate's edits, and prints those that are failures."""
        for name, wrong in verdicts.items():
            if wrong:
                self.tell("FAILED %s/%s: %s" % (crate, name, wrong[:400]))
        with self.printing:
            self.failed += sum(map(bool, verdicts.values()))
            self.passed += sum(not wrong for wrong in verdicts.values())


def try_all(options):
    """Tries the edits of the crates that are named, or of all, and returns how many passed and failed."""
    with tempfile.TemporaryDirectory(prefix="edits-") as room:
        tries = Tries(options, room)
        names = [name for name in tries.crates.uses if names_in(tries.crates.folder(name)) and (not options.crate or name in options.crate)]
        # Those with most edits are asked for first.
        names.sort(key=lambda name: -len(names_in(tries.crates.folder(name))))
        with futures.ThreadPoolExecutor(len(names) or 1) as pool:
            list(pool.map(tries.try_crate, names))
        return tries.passed, tries.failed


def main():
    parser = argparse.ArgumentParser(description=__doc__, formatter_class=argparse.RawDescriptionHelpFormatter)
    parser.add_argument("crate", nargs="*", help="the crates whose edits are tried")
    parser.add_argument("--try", action="store_true", dest="is_try", help="try the edits")
    parser.add_argument("--gate", help="what `rt ci` is writing: wait until it has proved a crate")
    parser.add_argument("--jobs", type=int, default=max(1, PROCESSORS - 1), help="how many runs of the prover at once")
    parser.add_argument("--since", metavar="COMMIT", help="try only those that a change since this commit may concern")
    parser.add_argument("--alone", action="store_true", help="try every edit by itself")
    parser.add_argument("--sample", type=int, default=0, metavar="PERCENT", help="try so many of a hundred edits by themselves too")
    options = parser.parse_args()
    os.chdir(ROOT)
    if options.is_try:
        passed, failed = try_all(options)
    else:
        found = list(check_texts(Crates()))
        for name, wrong in found:
            if wrong:
                print("FAILED %s: BAD EDIT: %s" % (name, wrong))
        failed = sum(bool(wrong) for _, wrong in found)
        passed = len(found) - failed
    print("%d passed, %d failed" % (passed, failed))
    return 1 if failed or not passed and not options.since else 0


if __name__ == "__main__":
    sys.exit(main())
