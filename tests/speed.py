#!/usr/bin/env python3
"""Counts the instructions of workloads, of lines of text and of calls again, and compares them with bench/ledger.txt.

usage: speed.py [--jobs N] [--write] [--kodliwe FILE] [--workloads FILE] [--calls FILE] [--archive FILE] [--rust FOLDER]

It counts by valgrind, so a busy machine does not matter. The rows are these:

  workload  a run of each workload of bench/workloads.txt, with the seed SEED and the rounds of ROUNDS, by demangle_workloads
  line      a line of each text of bench/lines.py, by kodliwe, less its start
  call      each call of bench/calls.py, by demangle_calls: for a legacy symbol, a v0 symbol, and one that is deep
  c         each call of the archive: for a real symbol of each scheme, one of generic code, one of nested tuples, and a line of a log
  rust      the calls of the Rust crate for the same, built by cargo

All but the last are proved, as `make` builds them. The rows `rust` are those of one release of rustc, which the ledger names. Another
release is a failure: then these rows are counted anew, in a commit of its own.

A row fails if it takes over MOST of its line in the ledger, or of its debt, if it has one. A row that the ledger has and that is not
counted fails too, and so does one that is counted and that the ledger lacks. Each row that changed since the ledger was written is
printed with both counts and their ratio.

--write writes what is counted into the ledger. It lowers the lines and the debts that are above, and raises none. The line of a new
row is its count. The other options name other builds. The last line is 'N passed, N failed'. A missing tool is a failure.
"""
import argparse
import gzip
import os
import re
import subprocess
import sys
import time
import typing
from concurrent import futures

import hostile
import rust_common
from common import ARCHIVE, BUILD, KODLIWE, ROOT, RUST, Tally, built, instructions, run, same, tool
from texts import NO_LIMIT, REAL, made_lines, stored

BENCH = os.path.join(ROOT, "bench")
sys.path.append(BENCH)
import calls  # noqa: E402
import lines  # noqa: E402

LEDGER = os.path.join(BENCH, "ledger.txt")
WORKLOADS = os.path.join(BUILD, "demangle_workloads")
# The most that a row may take, in its line, and by how much a count differs that did not change: it is rounded, and the start of a program
# copies the path of the checkout.
MOST, NOISE = 1.01, 0.0005
# How often the workloads are run, and with which seed.
ROUNDS, OTHER_ROUNDS, SEED = {"profile": 40, "hostile": 2}, 6, 7
# A call gets one symbol of generic code in so many.
SPARSE = 10
# The builds that are measured.
PLACES = {"kodliwe": KODLIWE, "workloads": WORKLOADS, "calls": calls.PROGRAM, "archive": ARCHIVE, "rust": RUST}
# The rows of the ledger, in its order: the name, the line, the count, and the debt if there is one.
KINDS = ["workload", "line", "call", "c", "rust"]
ROW = re.compile(r"((?:%s): .+?) {2,}([\d,.]+) {2,}([\d,.]+)(?: {2,}([\d,.]+))?" % "|".join(KINDS))
RUSTC = re.compile(r"rustc .+")


def shown(count):
    """Returns a count as the ledger has it, with a decimal if it is small."""
    return "" if count is None else "{:,.1f}".format(count) if count < 1_000 else "{:,.0f}".format(count)


def read(number):
    return float(number.replace(",", "")) if number else None


class Row(typing.NamedTuple):
    """A row of the ledger."""

    line: float
    count: float
    debt: typing.Optional[float]

    def most(self):
        """Returns the most that the row may take."""
        return MOST * (self.debt or self.line)

    def told(self, count):
        """Returns what is to be said of a count, if anything is."""
        parts, ratio = [], count / self.count
        if abs(ratio - 1) > NOISE:
            parts.append("%s in place of %s, %.4f" % (shown(count), shown(self.count), ratio))
        if self.debt or count > self.most():
            parts.append("%s, %.3f of its line" % (shown(count), count / self.line))
        return "; ".join(parts)

    def written(self, count):
        """Returns the row with a new count. Its line and its debt only fall, and a debt that is paid goes."""
        debt = min(self.debt, count) if self.debt else None
        return Row(min(self.line, count), count, debt if debt and debt > self.line else None)


def read_ledger():
    """Returns the ledger's head, the rustc of its rows, and its rows by their names."""
    with open(LEDGER, encoding="utf-8") as file:
        text = file.read().splitlines()
    start = next((at for at, line in enumerate(text) if ROW.fullmatch(line)), len(text))
    head, rows = text[:start], {}
    for line in filter(None, text[start:]):
        found = ROW.fullmatch(line)
        assert found, "no row: %s" % line
        name, *numbers = found.groups()
        assert name not in rows, "twice: %s" % name
        rows[name] = Row(*map(read, numbers))
    (rustc,) = filter(RUSTC.fullmatch, head)
    return head, rustc, rows


def write_ledger(head, rows):
    """Writes the rows after the head, in the order of KINDS."""
    parts = []
    for kind in KINDS:
        named = [(name, row) for name, row in rows.items() if name.startswith(kind + ":")]
        cells = ["%-60s %12s %12s %12s" % (name, *map(shown, row)) for name, row in named]
        parts.append("\n".join(cell.rstrip() for cell in cells) + "\n")
    with open(LEDGER, "w", encoding="utf-8") as file:
        file.write("\n".join(head) + "\n" + "\n".join(parts))


def workload(program, name, words):
    """Yields the instructions of a run of a workload."""
    words = [str({"SEED": SEED}.get(word, word)) for word in words]
    # The rounds of bench/workloads.txt are those of a measurement of time.
    words[1] = str(ROUNDS.get(name, OTHER_ROUNDS))
    assert words[-1].startswith("<"), "%s has no input" % name
    with open(os.path.join(BENCH, words.pop()[1:]), "rb") as file:
        yield name, instructions([built(program), *words], file.read())


def line(program, name, text, options):
    """Yields the instructions of a line of a text."""
    count = instructions([built(program), *options], text) - instructions([built(program), *options], b"")
    yield name, count / text.count(b"\n")


def call(program, kind, symbol):
    """Yields the instructions of each call of bench/calls.py for a symbol, less those of no call."""
    nothing, *counts = calls.turn_instructions([(built(program), name) for name in calls.CALLS], symbol)
    for name, count in zip(calls.CALLS[1:], counts):
        yield "%s, %s" % (name, kind), count - nothing


def call_texts():
    """Returns the texts that are given to a call, by their names, and of how many parts they are."""
    symbols = [symbol for symbol, limit, _ in stored() if limit == NO_LIMIT]
    parts = {name: symbols[start:end] for name, start, end in REAL}
    with gzip.open(lines.GENERIC) as file:
        parts["generic code"] = file.read().splitlines()[::SPARSE]
    parts["nested tuples"] = [lines.TUPLES]
    parts["a log"] = "".join(made_lines(1, "all")).encode().splitlines()
    return {name: (b"\n".join(found) + b"\n", len(found)) for name, found in parts.items()}


def driver(program, name, texts):
    """Yields the instructions of a call of a driver of tests/hostile.py for a part of each text."""
    found = hostile.measured(program, name, [text for text, _ in texts.values()])
    for (kind, (_, count)), (total, _) in zip(texts.items(), found):
        yield "%s, %s" % (name, kind), total / count


def c_driver(archive):
    return hostile.c_driver("proved" if archive == ARCHIVE else "given", archive)


def measurements(given):
    """Yields what is measured: its kind, a name, a function that yields rows, and its arguments."""
    with open(os.path.join(BENCH, "workloads.txt"), encoding="utf-8") as file:
        for name, _, *words in map(str.split, file):
            yield "workload", name, workload, given.workloads, name, words
    for name, text, options in lines.made():
        yield "line", name, line, given.kodliwe, name, text, options
    legacy, v0 = calls.typical()
    for name, symbol in (("legacy", legacy), ("v0", v0), ("deep v0", calls.DEEP)):
        yield "call", name, call, given.calls, name, symbol
    texts = call_texts()
    for name in hostile.C_CALLS + hostile.LINEAR_C_CALLS:
        yield "c", name, lambda name: driver(c_driver(given.archive), name, texts), name
    for name in hostile.CALLS:
        yield "rust", name, lambda name: driver(hostile.rust_driver(), name, texts), name


def count(found, kind, measure, *arguments):
    """Adds the rows of a measurement to those that were found, and returns how long it took."""
    began = time.monotonic()
    for name, total in measure(*arguments):
        assert total > 0, "%s: %s" % (name, total)
        found.append(("%s: %s" % (kind, name), total))
    return "%.0f seconds" % (time.monotonic() - began)


def count_all(tally, given):
    """Returns the counts of all rows by their names, in the order of the measurements."""
    parts = [(part, []) for part in measurements(given)]
    with futures.ThreadPoolExecutor(given.jobs) as pool:
        for (kind, name, *rest), found in parts:
            pool.submit(tally.step, "counting %s: %s" % (kind, name), count, found, kind, *rest)
    rows = [row for _, found in parts for row in found]
    same(len(dict(rows)), len(rows))
    return dict(rows)


def judge(tally, rows, found):
    """Counts each row, of the ledger or of what was found, as one part."""
    for name in [*rows, *(name for name in found if name not in rows)]:
        if name not in found:
            tally.count(name, False, "the ledger has it, and it was not counted")
        elif name not in rows:
            tally.count(name, False, "%s, and the ledger lacks it" % shown(found[name]))
        else:
            tally.count(name, found[name] <= rows[name].most(), rows[name].told(found[name]))


def check_rustc(wanted):
    same(run([tool("rustc", "rustc"), "--version"]).decode().strip(), wanted)


def make(*targets):
    """Builds some programs, after `make` proved what is below them."""
    built(os.path.join(BUILD, "proved"))
    run(["make", "--no-print-directory", *targets], cwd=ROOT, stdin=subprocess.DEVNULL)


def build(tally, given):
    """Builds what `make` alone does not. The runs then have no environment, since the start of a program copies it."""
    if made := [os.path.relpath(path, ROOT) for path in (given.workloads, given.calls) if path in (WORKLOADS, calls.PROGRAM)]:
        tally.step("make " + " ".join(made), make, *made)
    tally.step("the driver of the archive", lambda: c_driver(given.archive) and None)
    tally.step("the driver of the Rust crate", lambda: hostile.rust_driver() and None)
    path = os.environ["PATH"]
    os.environ.clear()
    os.environ["PATH"] = path


def options():
    words = argparse.ArgumentParser(description=__doc__, formatter_class=argparse.RawDescriptionHelpFormatter)
    words.add_argument("--jobs", metavar="N", type=int, default=2, help="how many rows are counted at once (2)")
    words.add_argument("--write", action="store_true", help="write what is counted into the ledger")
    for name, path in PLACES.items():
        words.add_argument("--" + name, metavar="PATH", type=os.path.abspath, default=path)
    return words.parse_args()


def main():
    given, tally = options(), Tally()
    hostile.GIVEN.rust = given.rust
    os.makedirs(rust_common.OUT, exist_ok=True)
    head, rustc, rows = read_ledger()
    tally.step("rustc", check_rustc, rustc)
    build(tally, given)
    found = count_all(tally, given)
    judge(tally, rows, found)
    if given.write:
        write_ledger(head, {name: rows[name].written(it) if name in rows else Row(it, it, None) for name, it in found.items()})
    debts = [name for name, row in rows.items() if row.debt]
    print("%d rows, %d of them debts" % (len(rows), len(debts)))
    return tally.end()


if __name__ == "__main__":
    sys.exit(main())
