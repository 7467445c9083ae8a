#!/usr/bin/env python3
"""Measures what a command that runs the prover takes, crate by crate: bench/gate.py rt ci. tests/run prints the same of itself.

usage: gate.py [--pid PID] [COMMAND..]

It looks at the prover's processes once a second, those below the command, or below the process PID until that ends. At the end it
prints a table: for each crate the processor time of its proof, of its tests' proof and of its edits, in minutes, and the minutes from
the start and to the end of its proof. Then it prints the longest chain: the crates that were proved one after another, since each
stands on the one before.
"""
import argparse
import glob
import os
import re
import subprocess
import sys
import time

sys.path.insert(0, os.path.join(os.path.dirname(os.path.abspath(__file__)), "..", "tests"))
import quick  # noqa: E402

KINDS = ("proof", "tests", "edits")
TICKS = os.sysconf("SC_CLK_TCK")


def read(place):
    """Returns the bytes of a file of /proc, or none if the process has ended."""
    try:
        with open(place, "rb") as file:
            return file.read()
    except OSError:
        return b""


def processes():
    """Returns each process's parent, and its seconds of processor time with those of the children that it waited for."""
    found = {}
    for place in glob.glob("/proc/[0-9]*/stat"):
        words = read(place).decode(errors="replace").rpartition(")")[2].split()
        if words:
            found[int(place.split("/")[2])] = int(words[1]), sum(map(int, words[11:15])) / TICKS
    return found


def task_of(pid):
    """Returns the crate that a process proves and what of it, or None if it is no prover."""
    words = read("/proc/%d/cmdline" % pid).decode(errors="replace").split("\0")
    if not os.path.basename(words[0]).startswith("rattle") or "--crate-name" not in words:
        return None
    crate = words[words.index("--crate-name") + 1]
    if "--test" in words:
        return crate, "tests"
    try:
        return crate, "edits" if re.search(r"/(?:edits|rt-edit)[^/]*-\w+/", os.readlink("/proc/%d/cwd" % pid) + "/") else "proof"
    except OSError:
        return None


class Watch:
    """Knows what each task of the prover took."""

    def __init__(self):
        self.began, self.tasks, self.seconds, self.spans = time.monotonic(), {}, {}, {}

    def look(self, root):
        """Looks at the processes below one."""
        found, children = processes(), {}
        for pid, (parent, _) in found.items():
            children.setdefault(parent, []).append(pid)
        now, waiting = time.monotonic() - self.began, [(child, None) for child in children.get(root, [])]
        spent = {}
        while waiting:
            pid, task = waiting.pop()
            if task is None:
                known = self.tasks.get(pid) or task_of(pid)
                if known:
                    self.tasks[pid] = known
                    task = pid, known
            if task:
                spent[task] = spent.get(task, 0) + found[pid][1]
            waiting += [(child, task) for child in children.get(pid, [])]
        for task, seconds in spent.items():
            self.seconds[task] = max(self.seconds.get(task, 0), seconds)
            first, _ = self.spans.get(task, (now, now))
            self.spans[task] = first, now

    def minutes(self, crate, kind):
        """Returns the processor time of all tasks of a crate and a kind."""
        return sum(seconds for (_, task), seconds in self.seconds.items() if task == (crate, kind)) / 60

    def span(self, crate):
        """Returns the minutes from the start and to the end of a crate's proof, the dearest if there are some, or None if it was kept."""
        proofs = [task for task in self.seconds if task[1] == (crate, "proof")]
        return tuple(at / 60 for at in self.spans[max(proofs, key=self.seconds.get)]) if proofs else None

    def chain(self, lower):
        """Returns the crates of the longest chain of proofs, and its minutes, by how long each proof took."""
        spans = {crate: self.span(crate) for crate in lower}
        took, best = {crate: span[1] - span[0] if span else 0 for crate, span in spans.items()}, {}
        for crate in sorted(lower, key=lambda crate: len(lower[crate])):
            before = max((best[other] for other in lower[crate]), default=(0, []))
            best[crate] = before[0] + took[crate], [*before[1], *([crate] if took[crate] else [])]
        return max(best.values())

    def show(self):
        """Prints the table and the chain."""
        lower = quick.below()
        print("| crate | proof | tests | edits | all | its proof, from and to |\n|---|---:|---:|---:|---:|---|")
        whole = dict.fromkeys(KINDS, 0.0)
        for crate in sorted(lower, key=lambda crate: -sum(self.minutes(crate, kind) for kind in KINDS)):
            took = [self.minutes(crate, kind) for kind in KINDS]
            if not sum(took):
                continue
            for kind, minutes in zip(KINDS, took):
                whole[kind] += minutes
            span = self.span(crate)
            times = "%.1f to %.1f" % span if span else "kept"
            print("| `%s` | %s | %.1f | %s |" % (crate, " | ".join("%.1f" % minutes for minutes in took), sum(took), times))
        print("| all | %s | %.1f | |" % (" | ".join("%.1f" % whole[kind] for kind in KINDS), sum(whole.values())))
        minutes, crates = self.chain(lower)
        print("\nThe longest chain of proofs takes %.1f minutes: %s." % (minutes, ", ".join("`%s`" % crate for crate in crates)))
        print(
            "The whole took %.1f minutes, with a load of %.1f at its end." % ((time.monotonic() - self.began) / 60, os.getloadavg()[0]),
            flush=True,
        )


def main():
    parser = argparse.ArgumentParser(description=__doc__, formatter_class=argparse.RawDescriptionHelpFormatter)
    parser.add_argument("--pid", type=int, help="a process that is running, in place of a command")
    parser.add_argument("command", nargs=argparse.REMAINDER, help="the command, as rt ci")
    options = parser.parse_args()
    watch = Watch()
    if options.pid:
        while re.search(r"^State:\s+[^Z]", read("/proc/%d/status" % options.pid).decode(errors="replace"), re.M):
            watch.look(options.pid)
            time.sleep(1)
        watch.show()
        return 0
    with subprocess.Popen(options.command) as child:
        while child.poll() is None:
            watch.look(child.pid)
            time.sleep(1)
    watch.show()
    return child.returncode


if __name__ == "__main__":
    sys.exit(main())
