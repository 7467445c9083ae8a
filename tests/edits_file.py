"""Reads the edits of a crate, and says of each how it can be tried, for tests/edits.py."""

import os
import re

from edits_source import read

# The folder of a crate that has its edits. `rt ci` does not read it.
FOLDER = "edits"
# An edit that writes one of these words changes more than what a body does.
ITEM = re.compile(r"\b(fn|impl|invariant|ghost|const|use)\b")
# A call in a body, and what a proof names of a goal or of a call.
CALL, CITED = re.compile(r"\b([a-z_]\w*)(?:::<[^()]*>)?\("), re.compile(r"\b(?:c|goal)\.([\w.-]+)")


class BadEdit(Exception):
    """Says why an edit can't be read or applied."""


def names_in(folder):
    """Returns the names of the edits of a crate's folder."""
    place = os.path.join(folder, FOLDER)
    found = sorted(os.listdir(place)) if os.path.isdir(place) else []
    return [name[: -len(".edit")] for name in found if name.endswith(".edit")]


def parsed(folder, name):
    """Returns the pairs of an edit, each a file's path, an old and a new text, and the function and clause of its line `clause:`."""
    pairs, clauses, path, old = [], [], None, None
    for line in read(folder, FOLDER, name + ".edit").split("\n"):
        key, _, value = line.partition(":")
        if key == "file":
            path = value.strip()
            if os.path.normpath(path) != path or not re.match(r"src/", path) or not os.path.isfile(os.path.join(folder, path)):
                raise BadEdit("there is no file %s in src/" % path)
        elif key == "old":
            old = value.removeprefix(" ")
        elif key == "new":
            if not path or not old:
                raise BadEdit("a line `new:` has no line `file:` or `old:` before it")
            pairs.append((path, old, value.removeprefix(" ")))
            old = None
        elif key == "clause":
            clauses.append(tuple(value.split()))
    if [len(words) for words in clauses] != [2]:
        raise BadEdit("it has no line `clause: FUNCTION CLAUSE`, or more than one")
    if not pairs:
        raise BadEdit("it has no lines `file:`, `old:` and `new:`")
    return pairs, clauses[0]


class Edit:
    """An edit: its pairs, its clause, and which functions it changes and names.

    `is_copied` says that it changes the body of one function, which its clause names, and that a copy of this function can carry it.
    `is_lone` says that it changes more than bodies, so that no other edit is tried in the same run.
    """

    def __init__(self, source, name):
        self.source, self.name = source, name
        self.pairs, self.clause = parsed(source.folder, name)
        self.texts = self.applied({})
        if all(text == source.texts[path] for path, text in self.texts.items()):
            raise BadEdit("it changes nothing")
        self.changed, self.is_lone = self.changes()
        self.named = self.named_functions()
        self.is_lone = self.is_lone or not self.named
        self.is_copied = not self.is_lone and self.can_be_copied()
        self.rests = self.what_it_rests_on()

    def applied(self, texts):
        """Returns the edited files, as other edits left them or as they are."""
        texts = dict(texts)
        for path, old, new in self.pairs:
            text = texts.get(path) or self.source.texts[path]
            if text.count(old) != 1:
                raise BadEdit("an `old:` text is in %s %d times, and not once" % (path, text.count(old)))
            texts[path] = text.replace(old, new)
        return texts

    def changes(self):
        """Returns the functions whose bodies the edit changes, and whether it changes more than these."""
        texts, changed, is_more = {}, [], False
        for path, old, new in self.pairs:
            text = texts.get(path) or self.source.texts[path]
            full = self.body_around(path, text, old, new)
            own = [function for function in self.source.functions if function.full == full]
            changed += own if len(own) == 1 else []
            is_more = is_more or len(own) != 1
            texts[path] = text.replace(old, new)
        return list(dict.fromkeys(changed)), is_more

    def body_around(self, path, text, old, new):
        """Returns the function whose body a pair changes, or None if it changes something else."""
        same = len(os.path.commonprefix([old, new]))
        ends = len(os.path.commonprefix([old[same:][::-1], new[same:][::-1]]))
        first, last = text.index(old) + same, text.index(old) + len(old) - ends
        inside = [function for function in self.source.functions_in(path, text) if function.body < first and last < function.end]
        is_balanced = new.count("{") - new.count("}") == old.count("{") - old.count("}")
        return inside[0].full if inside and is_balanced and not ITEM.search(new) else None

    def named_functions(self):
        """Returns the functions that the clause may name: one that the edit changes, or of the same file, or any, or a new one."""
        named = self.source.by_name.get(self.clause[0], [])
        near = [function for function in named if function.path in self.texts]
        if named:
            return [function for function in named if function in self.changed] or near or named
        here = [function for path, text in self.texts.items() for function in self.source.functions_in(path, text)]
        return [function for function in here if function.name == self.clause[0]]

    def lost_calls(self):
        """Returns the calls that the edit takes away and that a proof of its function names. Then a goal may fail for the name alone."""
        lost = set()
        for function in self.changed:
            edited = [other for other in self.source.functions_in(function.path, self.texts[function.path]) if other.full == function.full]
            kept = {*CALL.findall(edited[0].body_text)} if edited else set()
            folder, files = self.source.proof_files(function)
            cited = {word for file in files for found in CITED.findall(read(folder, file)) for word in re.split("[.-]", found)}
            lost |= ({*CALL.findall(function.body_text)} - kept) & cited
        return sorted(lost)

    def can_be_copied(self):
        """Returns whether a copy of the function can carry the edit. A trait has no place for one, and one that calls itself would call
        the function as it is."""
        function = self.changed[0]
        return self.changed == self.named == [function] and not function.is_of_trait and not function.calls_itself()

    def what_it_rests_on(self):
        """Returns the functions on which the verdict rests: those that it asks for, and all that they call, also in the edited text."""
        words = {word for _, old, new in self.pairs for word in {*re.findall(r"\w+", new)} - {*re.findall(r"\w+", old)}}
        begun = {*self.asks(), *(function.full for word in words for function in self.source.by_name.get(word, []))}
        return begun.union(*(self.source.below(full) for full in begun))

    def asks(self):
        """Returns the functions that the prover is asked for, by their full names."""
        return list(dict.fromkeys(function.full for function in [*self.named, *self.changed]))

    def conflicts(self, other):
        """Returns whether one of two edits changes what the verdict on the other rests on."""
        ours, theirs = ({function.full for function in edit.changed} for edit in (self, other))
        return self.is_lone or other.is_lone or bool(self.rests & theirs or other.rests & ours)
