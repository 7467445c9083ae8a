"""Finds the functions of a crate's Rattle source by its text, and which of them calls which, for tests/edits.py."""

import collections
import json
import os
import re

# Comments and literals.
BLANK = re.compile(r"""//[^\n]*|/\*.*?\*/|[bc]?r(#+)".*?"\1|[bc]?"(?:[^"\\]|\\.)*"|b?'(?:[^'\\\n]|\\[^\n]{1,8}?)'""", re.S)
# What is before a brace that belongs to a clause, and does not begin a body.
CLAUSE = re.compile(r"(?:^|[\s}])(?:requires|ensures|decreases|ghost)\*?(?:\s+\w+)?(?:\s*:[^{}]*|\s*=)?\s*$")
OWNER = re.compile(r"\b(impl|trait)\b\s*(<[^{;]*?>)?\s*([^{;]*?)\s*\{")
FUNCTION = re.compile(r"\bfn (\w+)")


def read(*place):
    """Returns the text of a file."""
    with open(os.path.join(*place), encoding="utf-8") as file:
        return file.read()


def blanked(text):
    """Returns a text with spaces in place of comments and literals."""
    return BLANK.sub(lambda found: re.sub(r"[^\n]", " ", found[0]), text)


def group_end(text, at):
    """Returns the place after the brace that closes the one at a place."""
    depth = 0
    for found in re.compile(r"[{}]").finditer(text, at):
        depth += 1 if found[0] == "{" else -1
        if depth == 0:
            return found.end()
    return len(text)


def first_line(text, start):
    """Returns the place of the first line of the item whose `fn` is at a place: of its attributes and its doc."""
    first = text.rfind("\n", 0, start) + 1
    while first > 0:
        line = text[text.rfind("\n", 0, first - 1) + 1 : first - 1]
        is_other = re.search(r"[{};]\s*(//.*)?$", line) and not line.strip().startswith(("#", "//"))
        if not line.strip() or is_other:
            break
        first = text.rfind("\n", 0, first - 1) + 1
    return first


def head_name(type_):
    """Returns the last name of a type's path, without its arguments: `Symbol` of `crate::cursor::Symbol<'s>`."""
    type_ = re.sub(r"<.*", "", type_.strip(), flags=re.S)
    found = re.findall(r"\w+", re.sub(r"^&\s*('\w+\s*)?(mut\s+)?", "", type_))
    return found[-1] if found else ""


def owners_of(text):
    """Yields the place, the name and whether it is a trait's, of each `impl` and `trait` of a blanked text."""
    for found in OWNER.finditer(text):
        before = text[: found.start()]
        if before.count("{") != before.count("}"):
            continue
        trait, is_for, of = found[3].split(" where ")[0].partition(" for ")
        is_trait = found[1] == "trait"
        name = head_name(of) + head_name(trait) if is_for else head_name(re.sub(r":.*", "", trait, flags=re.S) if is_trait else trait)
        yield found.end() - 1, group_end(text, found.end() - 1), name, is_trait or bool(is_for)


def body_of(text, at):
    """Returns the places of a function's body, whose name ends at a place. The first is None if it has none."""
    begin = at
    while step := re.compile(r"[{;]").search(text, at):
        if step[0] == ";":
            at = step.end()
            head = text[begin : step.start()]
            # a `;` inside brackets is that of an array's type
            if head.count("[") > head.count("]"):
                continue
            return None, at
        end = group_end(text, step.start())
        if not CLAUSE.search(text[begin : step.start()]):
            return step.start(), end
        at = end
    return None, at


def module_of(path):
    """Returns the names of the modules of a file."""
    names = re.sub(r"^src/|\.rt$", "", path).split("/")
    return [] if names in (["lib"], ["main"]) else [name for name in names if name != "mod"]


class Function:
    """A function with a body: its names, and its places in the text of its file."""

    def __init__(self, path, names, places, text, is_of_trait):
        self.path, self.name, self.full, self.is_of_trait = path, names[-1], "::".join(names), is_of_trait
        self.start, self.body, self.end = places
        self.first, self.body_text = first_line(text, self.start), text[self.body : self.end]
        self.is_constant = text[: self.start].endswith("const ")

    def calls_itself(self):
        """Returns whether the function's own name is in its body."""
        return re.search(r"\b%s\b" % self.name, self.body_text) is not None


def functions_of(crate, path, text):
    """Returns the functions of a file, without those inside others."""
    text, found, at = blanked(text), [], 0
    owners = list(owners_of(text))
    while begin := FUNCTION.search(text, at):
        body, at = body_of(text, begin.end())
        if body is None:
            continue
        around = [(name, is_of_trait) for first, last, name, is_of_trait in owners if first < begin.start() < last]
        owner, is_of_trait = around[0] if around else ("", False)
        names = [crate, *module_of(path), *([owner] if owner else []), begin[1]]
        found.append(Function(path, names, (begin.start(), body, at), text, is_of_trait))
    return found


def words_in(part):
    """Yields the texts in a value of JSON."""
    if isinstance(part, str):
        yield part
    elif isinstance(part, dict):
        for key, value in part.items():
            yield key
            yield from words_in(value)
    elif isinstance(part, list):
        for value in part:
            yield from words_in(value)


def calls_in(place):
    """Returns what each function of a built library names, from what the prover lowered it to."""
    entries = json.loads(read(place))
    names = {name for name, _ in entries}
    return {name: {word for word in words_in(what) if word in names and word != name} for name, what in entries}


class Source:
    """The files and functions of a crate as it is, and what each function calls.

    The library that the gate built says which function calls which. A static library and a program have none. There the words of a
    body say it: too much rather than too little.
    """

    def __init__(self, folder, library):
        self.crate, self.folder, self.texts, self.functions = os.path.basename(folder), folder, {}, []
        for at, _, names in sorted(os.walk(os.path.join(folder, "src"))):
            for path in (os.path.relpath(os.path.join(at, name), folder) for name in sorted(names) if name.endswith(".rt")):
                self.texts[path] = read(folder, path)
                self.functions += functions_of(self.crate, path, self.texts[path])
        self.by_name, self.reached, self.owner_of = collections.defaultdict(list), {}, {}
        for function in self.functions:
            self.by_name[function.name].append(function)
        place = os.path.join(library, "toolchain", "mir.json")
        self.is_built = os.path.isfile(place)
        self.calls = calls_in(place) if self.is_built else self.calls_by_words()
        self.take_names()

    def calls_by_words(self):
        """Returns what each function may call, by the words of its body."""
        words = {function.full: {*re.findall(r"\w+", function.body_text)} for function in self.functions}
        return {full: {other.full for other in self.functions if other.name in found} for full, found in words.items()}

    def take_names(self):
        """Gives each method the prover's name for it: that of the module of its type, wherever its `impl` is."""
        by_end = collections.defaultdict(set)
        for full in self.calls:
            by_end[tuple(full.split("::")[-2:])].add(full)
        for function in self.functions:
            found = by_end[tuple(function.full.split("::")[-2:])]
            if function.full not in self.calls and len(found) == 1:
                was, function.full = function.full, next(iter(found))
                self.owner_of[was.rpartition("::")[0]] = function.full.rpartition("::")[0]

    def functions_in(self, path, text):
        """Returns the functions of an edited text of a file, with the prover's names."""
        found = functions_of(self.crate, path, text)
        for function in found:
            owner, _, name = function.full.rpartition("::")
            function.full = "%s::%s" % (self.owner_of.get(owner, owner), name)
        return found

    def without_bodies(self, texts, names):
        """Returns the texts of all files, some of them edited, in which these functions have an empty body. Each line keeps its number.

        If the gate built no library, the prover's names are not all known, and no body is left out.
        """
        texts = {**self.texts, **texts}
        for path in self.texts if self.is_built else []:
            for function in reversed(self.functions_in(path, texts[path])):
                # The compiler evaluates the body of a constant one.
                if function.full in names and not function.is_constant:
                    text, lines = texts[path], function.body_text.count("\n")
                    texts[path] = text[: function.body] + "{ unreachable!()" + "\n" * lines + "}" + text[function.end :]
        return texts

    def below(self, full):
        """Returns the functions that a function may call, directly or not."""
        if full not in self.reached:
            found, left = set(), [full]
            while left:
                new = self.calls.get(left.pop(), set()) - found
                found |= new
                left += new
            self.reached[full] = found
        return self.reached[full]

    def is_proved(self, function):
        """Returns whether a check without tests proves a function: one that the library has, or that is outside of tests."""
        if self.is_built:
            return function.full in self.calls
        text = self.texts[function.path]
        is_test = "#[test]" in text[function.first : function.start] or "#[cfg(test)]" in text[: function.first]
        return not is_test and "test" not in function.path

    def proof_files(self, function):
        """Returns the folder of a function's own proof, and the names of its files."""
        folder = os.path.join(self.folder, "proofs", *function.full.split("::")[1:])
        return folder, sorted(os.listdir(folder)) if os.path.isdir(folder) else []
