"""Asks the prover for a crate with an edited text, and reads what it says, for tests/edits.py."""

import os
import re
import shutil
import signal
import subprocess
import tempfile
import threading

from common import ROOT, tool
from edits_source import read

IN_PROOF = re.compile(r"(?:\./)?proofs/(?:(.*)/)?([\w-]+)/\w+\.antt:\d+:\d+: \w+: `([^`]*)`")
IN_SOURCE = re.compile(r"(?:note: )?(?:\./)?(src/\S+?):(\d+):\d+: (.*)")
# The prover gave up, which says nothing of an edit.
LIMITS = re.compile(
    r"antt ran out of (stack|the (steps|memory) that the check of one declaration may (take|use))"
    r"|(outgrew the memory limit|stopped at the step limit) \("
)
# A proof names what an edit took away.
TAKEN = re.compile(r"(note: )?(\./)?proofs/.*(has no field|is not in scope|has no `|was not admitted)")
# A file that the prover can't read: where, perhaps the goal, and why.
UNREAD = re.compile(r"(?:\./)?(\S+?):\d+:\d+: error: (?:(`[^`]*`): )?(.*)")
UNREAD_WHY = re.compile(r"is not in scope|has no field|is no name|operand is missing|expected the end|cannot continue")
HOLE = r"depends on a hole in `Rattle\.\w+\.proofs\.\S+\.Proof\.\S+_spec`.*"


def clause_of(goal):
    """Returns the clause that a goal is of."""
    named = re.search(r"clause-([\w-]+?)(?:-\d+)?$", goal)
    if named:
        return named[1]
    if goal.startswith("invariant_of"):
        return "invariant"
    if goal.startswith(("loop", "invariant", "decreases")):
        return "loop"
    return "ensures" if goal.startswith("returns") else "call"


def link(one, other):
    """Makes a link to a file, or a copy on another file system."""
    try:
        os.link(one, other)
    except OSError:
        shutil.copy2(one, other)


class Crates:
    """Knows the crates of this repository by crates.txt, and how the kit checks one.

    A room has links to the libraries, since `rt ci` puts back at its end what crates/*/out had before.
    """

    def __init__(self, room=""):
        lines = [line.split("#")[0].partition(":") for line in read(ROOT, "crates.txt").splitlines()]
        heads = [(head.split(), uses.split()) for head, _, uses in lines if head.strip()]
        self.uses = {head[0]: uses for head, uses in heads}
        self.static = {head[0] for head, _ in heads if "staticlib" in head[1:]}
        self.kit = os.path.dirname(os.path.dirname(os.path.realpath(tool("rt"))))
        self.room, self.taking = room, threading.Lock()

    def folder(self, name):
        """Returns the folder of a crate."""
        return os.path.join(ROOT, "crates", name)

    def library(self, name):
        """Returns the library that the gate made of a crate: the link in the room, if it was taken."""
        taken = os.path.join(self.room, name, name + ".rlib")
        return taken if self.room and os.path.isdir(taken) else os.path.join(self.folder(name), "out", "rlib", name + ".rlib")

    def take(self, name):
        """Takes the libraries on which a proved crate stands, and its own. Returns those that are not there."""
        with self.taking:
            for one in [*self.below(name), name]:
                made, taken = self.library(one), os.path.join(self.room, one, one + ".rlib")
                if made != taken and os.path.isdir(made):
                    shutil.copytree(made, taken, copy_function=link)
        return [one for one in self.below(name) if not os.path.isdir(self.library(one))]

    def below(self, name):
        """Returns the crates on which a crate stands, the lower ones first."""
        found = []
        for used in self.uses[name]:
            if used in self.uses:
                found += [one for one in [*self.below(used), used] if one not in found]
        return found

    def words(self, name):
        """Returns the prover's command for a crate, with one job, as `rt ci` gives it."""
        top = "main" if os.path.isfile(os.path.join(self.folder(name), "src", "main.rt")) else "lib"
        words = [self.kit + "/bin/rattle", "check", "--crate-name", name, "src/%s.rt" % top]
        for used in ["std", *(one for one in self.uses[name] if one not in self.uses)]:
            words += ["--extern", "%s=%s/rlibs/%s.rlib" % (used, self.kit, used)]
        words += ["-L", "dependency=%s/rlibs" % self.kit]
        for used in self.uses[name]:
            if used in self.uses:
                words += ["--extern", "%s=%s" % (used, self.library(used))]
        for used in self.below(name):
            words += ["-L", "dependency=" + os.path.dirname(self.library(used))]
        words += ["--antt-project", self.kit + "/rattle/logic/antt-project.json", "--logic-built", self.kit + "/logic_built"]
        return words + ["--jobs", "1", "--links", name + "=", *(["--crate-type", "staticlib"] if name in self.static else [])]


def run(words, folder):
    """Runs the prover in a folder, once more if it is killed, most likely for memory. Returns its status, what it said, and its seconds of
    processor."""
    for _ in range(2):
        with tempfile.TemporaryFile(dir=folder) as out:
            ran = subprocess.Popen(words, cwd=folder, stdin=subprocess.DEVNULL, stdout=out, stderr=subprocess.STDOUT)
            _, status, used = os.wait4(ran.pid, 0)
            ran.returncode = os.waitstatus_to_exitcode(status)
            out.seek(0)
            said = out.read().decode(errors="replace")
        if ran.returncode != -signal.SIGKILL:
            break
    return ran.returncode, said, used.ru_utime + used.ru_stime


def write(folder, texts):
    """Writes texts into the files below a folder with these paths."""
    for path, text in texts.items():
        place = os.path.join(folder, path)
        os.makedirs(os.path.dirname(place), exist_ok=True)
        with open(place, "w", encoding="utf-8") as file:
            file.write(text)


def copy_kept(kept, to):
    """Copies the work that the prover keeps. It replaces a file of what is proved, and does not change one, so these are linked."""
    shutil.copytree(
        kept, to, symlinks=True, copy_function=lambda one, other: (link if one.endswith(".oantt") else shutil.copy2)(one, other)
    )


class Said:
    """What the prover said of a crate with these edited texts."""

    def __init__(self, source, status, text, texts):
        self.source, self.status, self.texts = source, status, texts
        self.lines = text.rstrip("\n").split("\n")
        # A long line goes on in the next one.
        self.after = {line: after for line, after in zip(self.lines, [*self.lines[1:], ""]) if after.startswith(" ")}
        placed = [line for line in self.lines if re.match(r"(note: )?\S+:\d+:\d+:", line)]
        self.told = [line for line in placed if ": error" in line or line.startswith("note: ")] or placed
        self.of_function = dict(found.groups() for line in self.lines if (found := re.match(r"fn (\S+): (.*)", line)))
        self.unread = next((line for line in self.lines if self.is_unread(line)), "")
        self.functions = {path: source.functions_in(path, text) for path, text in texts.items() if path.startswith("src/")}

    def is_unread(self, line):
        """Returns whether the prover could not read a source or a definition."""
        found = UNREAD.match(line)
        if not found or not found[1].startswith(("src/", "specs/")):
            return False
        return not found[2] or UNREAD_WHY.search(re.sub(r"`[^`]*`", "", found[3])) is not None

    def is_verdict(self):
        """Returns whether a run that asks for some functions judged them, which it does not if an edit does not compile."""
        return self.status == 1 and self.lines[-1].startswith("only=") and not self.unread

    def is_refused(self, full):
        """Returns whether a function is not proved."""
        return self.of_function.get(full, "").startswith(("not proved", "no proof"))

    def is_proved(self, full):
        """Returns whether a function is proved, if those are whose theorems are taken for it."""
        found = self.of_function.get(full, "")
        return bool(re.fullmatch("proved|no holes|" + HOLE, found)) and "%s.Proof." % full.split("::")[-1] not in found

    def goals(self, is_whole=True):
        """Yields the function and the clause of each goal that failed, in the order of the lines, and the line. Without the goals of proofs
        that name what an edit took away, if their whole line says so, or, as `rt must-fail` reads it, its first part."""
        for line in self.told:
            if not TAKEN.match(line + (self.after.get(line, "") if is_whole else "")):
                yield *self.place(line), line

    def place(self, line):
        """Returns the function that a line is of, by its full name, and the clause, or None for either."""
        if found := IN_PROOF.match(line):
            return "::".join([self.source.crate, *filter(None, (found[1] or "").split("/")), found[2]]), clause_of(found[3])
        if found := IN_SOURCE.match(line):
            goal = re.search(r"\(`([^`]*)`\)", found[3])
            return self.function_at(found[1], int(found[2])), clause_of(goal[1]) if goal else None
        return None, None

    def function_at(self, path, number):
        """Returns the function that is around a line of a file, or begins there."""
        lines = (self.texts.get(path) or self.source.texts.get(path, "")).split("\n")
        begin = sum(len(line) + 1 for line in lines[: number - 1])
        end = begin + len("".join(lines[number - 1 : number]))
        here = self.functions.get(path) or [function for function in self.source.functions if function.path == path]
        return next((function.full for function in here if function.first <= end and begin < function.end), None)
