#!/usr/bin/env python3
"""Runs demangle_filter and the other demanglers of this machine over symbols that are made to be costly.

Each symbol is one line of standard input, but for the last row, which is a text of equal lines. It prints a Markdown table
with a row for each symbol; for each program it has the seconds of processor time, the peak memory of the process in megabytes
(its greatest resident set) and the bytes that it wrote, or how it failed. A program is killed when it has taken the timeout.
The table has one symbol of each kind, and all of them with --all. With --stack, demangle_filter runs again with its stack
limited. `make` builds it.
"""
import argparse, ctypes, os, signal, subprocess, tempfile, time

from measuring import FILTER, further, need_programs, others
from hostile_texts import LINEAR
from texts import hostile

# The shell ends, and leaves the program to this process as a child, which starts when the gate opens. A child that this
# process forks itself would be charged for the memory of Python until its exec.
START = '{ read -r go <gate; ulimit -S -s "$1"; shift; exec "$@" <given 2>/dev/null; } >out & echo $!'
PR_SET_CHILD_SUBREAPER = 36
# In kilobytes.
USUAL_STACK = 8192
# The rows without --all: one of each kind.
SHOWN = (
    "doubling, 18 tuples",
    "doubling, 30 tuples",
    "490 `R` and a back reference, 1,000 x",
    "back reference into a name of 10^5 `R`, 1,000 x",
    "`_RMC0` and 10^6 `R`",
    "legacy, 10^6 elements",
    "`_RMC0FG`, 10 `Z`, `_Eu`",
    "10^6 times `_ZN1aE `",
)
# The last rows, with the family of each text and a number that sets its length. Only limits of kodliwe make their cost linear.
LIMITED = (
    ("B, 30,102 bytes", "one B", 30_000),
    ("588 lines `_RMC0FG15FTGf_Eu`", "binders in lines", 10_000),
)


def waited(pid, timeout):
    """Waits for a child, which is killed when it has taken so many seconds of processor time. Returns its status and what it used."""
    # This is what clock_getcpuclockid(3) makes of the number of a process.
    clock = ~pid << 3 | 2
    while True:
        ended, status, usage = os.wait4(pid, os.WNOHANG)
        if ended:
            return status, usage
        if time.clock_gettime(clock) > timeout:
            os.kill(pid, signal.SIGKILL)
        time.sleep(0.01)


class Run:
    """A run of a program over a text."""

    def __init__(self, program, text, timeout, stack):
        with tempfile.TemporaryDirectory() as folder:
            given, out, gate = (os.path.join(folder, name) for name in ("given", "out", "gate"))
            os.mkfifo(gate)
            with open(given, "wb") as file:
                file.write(text)
            words = ["sh", "-c", START, "sh", str(stack)] + program
            pid = int(subprocess.run(words, cwd=folder, stdout=subprocess.PIPE, check=True).stdout)
            open(gate, "w").close()
            status, usage = waited(pid, timeout)
            self.processor = usage.ru_utime + usage.ru_stime
            self.kilobytes = usage.ru_maxrss
            self.written = os.path.getsize(out)
        self.end = self.ended(os.waitstatus_to_exitcode(status), timeout)

    def ended(self, code, timeout):
        if code == 0:
            return ""
        if code > 0:
            return "status %d" % code
        if -code == signal.SIGKILL and self.processor >= timeout:
            return "over %g s" % timeout
        return signal.Signals(-code).name

    def cell(self):
        wrote = self.end or "{:,}".format(self.written)
        return "{:.2f}, {:.1f}, {}".format(self.processor, self.kilobytes / 1024, wrote)


def rows(is_all):
    """Yields the texts of the first table, with their names."""
    for case, symbol in hostile():
        if is_all or case in SHOWN:
            yield case, symbol + "\n"
    for case, family, size in LIMITED:
        yield case, LINEAR[family](size)


def main():
    words = argparse.ArgumentParser(description=__doc__, formatter_class=argparse.RawDescriptionHelpFormatter)
    words.add_argument(
        "--timeout", type=float, default=10, metavar="SECONDS", help="kill a program after so many seconds of processor time (default 10)"
    )
    words.add_argument("--all", action="store_true", help="print a row for each symbol")
    words.add_argument("--stack", type=int, metavar="KILOBYTES", help="run demangle_filter again with this stack")
    words.add_argument(
        "--also",
        type=further,
        action="append",
        default=[],
        metavar="NAME=COMMAND",
        help="a further program to run (may stand more than once)",
    )
    given = words.parse_args()
    need_programs()
    # A program whose parent ends becomes a child of this process.
    ctypes.CDLL(None, use_errno=True).prctl(PR_SET_CHILD_SUBREAPER, 1, 0, 0, 0)
    programs = [("demangle_filter", [FILTER], USUAL_STACK)]
    if given.stack:
        programs.append(("demangle_filter, %d KB of stack" % given.stack, [FILTER], given.stack))
    programs += [(name, program, USUAL_STACK) for name, program in list(others()) + given.also]
    print("| seconds, MB, bytes | " + " | ".join(name for name, _, _ in programs) + " |")
    print("| --- |" + " ---: |" * len(programs))
    for case, text in rows(given.all):
        cells = [Run(program, text.encode(), given.timeout, stack).cell() for _, program, stack in programs]
        print("| " + " | ".join([case] + cells) + " |", flush=True)


if __name__ == "__main__":
    main()
