"""Tries the edits of one crate, for tests/edits.py.

A proof is modular: that of a function rests on its own code, on contracts and definitions, and on the theorems of the functions that it
calls. So several edits are tried in one run of the prover, which is asked (`--only`) for the functions that they change and name.

- **Copies.** An edit of one body is in a copy of its function with a name of its own, `NAME_by_edit_3`, beside a copy of its proof files.
  All that is not a copy is as it was, so no edit is in the way of another. If the function has proof files, a control, a copy without an
  edit, is in the same run and has to be proved. So no refusal comes from the copying.
- **Separate.** Other edits are tried in the functions themselves, several in a run if none changes what another's verdict rests on.
- **Theorems.** All functions that a run does not ask for have a hole as their proof, and the run takes their theorems as they are stated.
  The gate proves these from nothing. A caller knows their contracts alone, so their bodies are left out too. Before, what is no copy
  took 197 of the 847 seconds of the first run of `demangle_v0_parser`, most of it for lifetimes in these bodies.

Only a refusal as expected counts there: the first goal that fails in the function is of the clause that the edit names. A goal whose proof
only names what the edit took away is none. But that may be said in a second line, which `rt must-fail` does not read, so it takes such a
goal for a refusal. Any other edit is tried again in the function itself, and what is said is read as `rt must-fail` reads it. If it passes
so, it is named all the same, for somebody to mend it. Otherwise it is tried alone, over the whole crate and without holes, which decides.
"""

import os
import pathlib
import re
import shutil
import tempfile

import edits_prover
from edits_file import BadEdit, Edit, names_in
from edits_plan import copied_runs, separate_runs
from edits_prover import LIMITS, Said, copy_kept, write
from edits_source import Source, first_line, read

PARTS = ("src", "specs", "proofs")
# What a function's proof is made of if it has no file Proof.antt.
ANSWERS = ("Answers.antt", "Invariants.antt")
# The proof of a function whose theorem is taken as it is stated.
HOLE = "use Rattle.%s.proofs.%s.Statement as stated\n\npub %s_spec : {M : Type 1} → stated.statement M\n%s_spec = ?\n"


class Trial:
    """The edits of a crate and what is known of each: None if it is refused as it should be, or what is wrong."""

    def __init__(self, crates, name, room, tell):
        self.crates, self.name, self.room, self.tell = crates, name, os.path.join(room, name), tell
        self.source = Source(crates.folder(name), crates.library(name))
        self.verdicts, self.edits, self.seconds, self.begun = {}, [], 0.0, False
        # The edits whose verdict is that of a run by themselves.
        self.lone = set()
        for edit in names_in(self.source.folder):
            try:
                self.edits.append(Edit(self.source, edit))
            except BadEdit as error:
                self.verdicts[edit] = "BAD EDIT: %s" % error
        # What the first run leaves, lemmas above all, serves the others.
        self.kept = os.path.join(self.room, "kept")
        os.makedirs(self.kept)

    def runs(self, is_alone):
        """Returns the runs of the prover that try the edits: what does it, and which."""
        if is_alone:
            return [(self.alone, [edit]) for edit in self.edits]
        copied = copied_runs([edit for edit in self.edits if edit.is_copied])
        separate = separate_runs([edit for edit in self.edits if not edit.is_copied])
        return [(self.copied, run) for run in copied] + [(self.separate, run) for run in separate]

    def copied(self, edits):
        """Tries edits in copies of their functions."""
        texts, controls, copies = {}, {}, {}
        for edit in edits:
            function = edit.changed[0]
            if function.full not in controls and self.source.proof_files(function)[1]:
                text = self.source.texts[function.path]
                controls[function.full] = self.add_copy(texts, function, text, "%s_as_it_is" % function.name)
            copies[edit] = self.add_copy(texts, function, edit.texts[function.path], "%s_by_edit_%d" % (function.name, len(copies)))
        said = self.asked(texts, [*controls.values(), *copies.values()])
        if not said.is_verdict() and len(edits) > 1:
            return self.halves(self.copied, edits)
        for edit in edits:
            control = controls.get(edit.changed[0].full)
            if control and not said.is_proved(control):
                self.again(edit, "the copy without an edit is not proved: %s" % said.of_function.get(control))
            else:
                self.settle(edit, said, [copies[edit]])

    def add_copy(self, texts, function, edited, name):
        """Adds a copy of a function of an edited text, under a new name, to the texts of a run, with copies of its proof files. Returns its
        full name."""
        here = self.found(function, function.path, edited)
        begin = first_line(edited, here.start)
        head, rest = edited[begin : here.start], edited[here.start : here.end]
        text = texts.get(function.path, self.source.texts[function.path])
        end = self.found(function, function.path, text).end
        copy = head + re.sub(r"^fn %s\b" % function.name, "fn " + name, rest)
        texts[function.path] = text[:end] + "\n\n" + copy + text[end:]
        full = function.full[: -len(function.name)] + name
        was, now = (".".join(one.split("::")[1:]) for one in (function.full, full))
        folder, files = self.source.proof_files(function)
        for file in files:
            cited = r"(Rattle\.%s\.(?:proofs|specs\.contracts)\.)%s(?![\w-])" % (self.name, re.escape(was))
            texts["proofs/%s/%s" % (now.replace(".", "/"), file)] = re.sub(cited, lambda found: found[1] + now, read(folder, file))
        return full

    def found(self, function, path, text):
        """Returns a function as it is in a text of its file."""
        return next(one for one in self.source.functions_in(path, text) if one.full == function.full)

    def separate(self, edits):
        """Tries edits in the functions themselves."""
        texts, names = {}, [full for edit in edits for full in edit.asks()]
        try:
            for edit in edits:
                texts = edit.applied(texts)
        except BadEdit:
            return self.halves(self.separate, edits)
        if not names:
            return self.alone(edits)
        said = self.asked(texts, list(dict.fromkeys(names)))
        if not said.is_verdict() and len(edits) > 1:
            return self.halves(self.separate, edits)
        for edit in edits:
            self.settle(edit, said, edit.asks())

    def halves(self, call, edits):
        """Tries the halves of a run, to find the edit that keeps the prover from judging the others."""
        middle = len(edits) // 2
        call(edits[:middle]), call(edits[middle:])

    def settle(self, edit, said, names):
        """Takes a refusal as expected in one of these functions as the verdict on an edit, and otherwise tries it again."""
        why = self.why_not(edit, said, names)
        if why:
            self.again(edit, why)
        else:
            self.verdicts[edit.name] = None

    @staticmethod
    def why_not(edit, said, names, is_whole=True):
        """Returns why a run does not show that an edit is refused as it should be in one of these functions, or None if it does."""
        if not said.is_verdict():
            return said.unread or said.lines[-1]
        goals = [(full, clause, line) for full, clause, line in said.goals(is_whole) if full in names]
        if not goals:
            return "no goal fails, unless a proof names what the edit took away"
        full, clause, line = goals[0]
        # A copy has the function's name with an ending.
        name = full.split("::")[-1].split("_by_edit_")[0]
        return None if (name, clause) == edit.clause and said.is_refused(full) else "%s %s: %s" % (name, clause, line)

    def again(self, edit, why):
        """Tries an edit in the function itself, where the lines of the prover are as long as for `rt must-fail`, and then alone."""
        self.tell("%s/%s is tried again: %s" % (self.name, edit.name, why[:200]))
        said = self.asked(edit.texts, edit.asks()) if edit.asks() else None
        if said and not self.why_not(edit, said, edit.asks(), is_whole=False):
            self.verdicts[edit.name] = None
        else:
            self.alone([edit])

    def alone(self, edits):
        """Tries each of these edits by itself, over the whole crate and without holes."""
        for edit in edits:
            said = self.checked(edit.texts, [])
            self.verdicts[edit.name] = self.wrong(edit, said)
            self.lone.add(edit.name)

    def wrong(self, edit, said):
        """Returns what is wrong with what the prover said of an edit alone, or None if it is refused as it should be."""
        limits = [line for line in said.lines if LIMITS.search(line)]
        if said.status == 0:
            return "NOT REFUSED: the crate is still proved"
        if limits and said.status == 3:
            return "refused only by a limit of the prover: %s" % limits[0]
        if said.status != 1:
            return "NOT TRIED: status %d: %s" % (said.status, said.lines[-1])
        if said.unread:
            return "BAD EDIT: the prover can't read it: %s" % said.unread
        if not said.lines[-1].startswith("logic=not-proved"):
            return "BAD EDIT: it does not compile: %s" % said.lines[0]
        full, clause, line = next(said.goals(is_whole=False), (None, None, ""))
        if not full:
            return "refused only since a proof names what it took away: %s" % (line or said.told[:1])
        found = full.split("::")[-1], clause
        return None if found == edit.clause else "refused by %s %s, and not by %s %s: %s" % (*found, *edit.clause, line)

    def asked(self, texts, names):
        """Asks the prover for these functions of the crate with these texts. The theorems of all others are taken as they are stated."""
        flags = [word for full in names for word in ("--only", full)]
        others = [function for function in self.source.functions if function.full not in names and self.source.is_proved(function)]
        holes = {}
        for function in others:
            names_of = function.full.split("::")[1:]
            place = "/".join(["proofs", *names_of])
            holes[place + "/Proof.antt"] = HOLE % (self.name, ".".join(names_of), function.name, function.name)
        texts = self.source.without_bodies(texts, {function.full for function in others})
        return self.checked(texts, [*flags, "--allow-holes"], holes)

    def checked(self, texts, flags, holes=()):
        """Runs the prover over a copy of the crate with these texts, and with holes in place of proofs."""
        with tempfile.TemporaryDirectory(prefix="run-", dir=self.room) as room:
            for part in PARTS:
                if os.path.isdir(os.path.join(self.source.folder, part)):
                    shutil.copytree(os.path.join(self.source.folder, part), os.path.join(room, part))
            for place in (os.path.dirname(place) for place in holes):
                for part in ANSWERS:
                    pathlib.Path(room, place, part).unlink(missing_ok=True)
            write(room, dict(holes))
            write(room, texts)
            kept = self.kept
            if self.begun:
                kept = os.path.join(room, "kept")
                copy_kept(self.kept, kept)
            status, text, seconds = edits_prover.run([*self.crates.words(self.name), "--incremental", kept, *flags], room)
        self.seconds += seconds
        return Said(self.source, status, text, texts)
