"""Finds the edits of a crate that a change may concern, for tests/edits.py --since."""

import os
import re
import subprocess

from common import ROOT, run
from edits_file import FOLDER
from edits_source import functions_of


def changed_paths(crate, commit):
    """Returns the paths in a crate's folder of the files that differ from those of a commit."""
    place = os.path.join("crates", crate) + "/"
    tracked = run(["git", "diff", "--name-only", "-z", commit, "--", place], cwd=ROOT)
    new = run(["git", "ls-files", "-z", "--others", "--exclude-standard", "--", place], cwd=ROOT)
    return sorted(path[len(place) :] for path in (tracked + new).decode().split("\0") if path)


def text_of(crate, commit, path):
    """Returns the text that a commit has of a file, or an empty one if it has no such file."""
    words = ["git", "show", "%s:crates/%s/%s" % (commit, crate, path)]
    return subprocess.run(words, cwd=ROOT, stdout=subprocess.PIPE, stderr=subprocess.DEVNULL, check=False).stdout.decode()


def texts_in(source, path, text):
    """Returns the text of each function of a file, with its attributes and its contract."""
    found = functions_of(source.crate, path, text)
    names = source.functions_in(path, text)
    return {name.full: text[function.first : function.end] for name, function in zip(names, found)}


def changed_functions(source, commit, paths):
    """Returns the functions whose text or whose own proof differs from that of a commit, by their full names."""
    found = set()
    for path in paths:
        if path in source.texts:
            was = texts_in(source, path, text_of(source.crate, commit, path))
            found |= {full for full, text in texts_in(source, path, source.texts[path]).items() if was.get(full) != text}
        elif owner := re.match(r"proofs/(.*)/\w+\.antt", path):
            found.add("::".join([source.crate, *owner[1].split("/")]))
    return found


def edits_since(source, edits, commit):
    """Returns the edits that were changed since a commit, and those of functions that were."""
    paths = changed_paths(source.crate, commit)
    functions = changed_functions(source, commit, paths)
    own = {os.path.basename(path).removesuffix(".edit") for path in paths if path.startswith(FOLDER + "/")}
    return [edit for edit in edits if edit.name in own or functions & {*edit.asks()}]
