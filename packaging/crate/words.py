"""Drops from documentation what it says of things that are erased."""

import re
import textwrap

from ghosts import GHOST_TYPES
from rattle_tokens import Token

COLUMNS = 100


def drop_ghost_words(tokens, members):
    """Drops the sentences that name a ghost member, and what is said of a ghost type."""
    at = 0
    while at < len(tokens):
        end = end_of_paragraph(tokens, at)
        if end is None:
            at += 1
            continue
        lines = [token for token in tokens[at:end] if token.kind == "comment"]
        mark = re.match(r"//[/!]?", lines[0].text)[0]
        old = " ".join(line.text[len(mark) :].strip() for line in lines)
        new = without_ghosts(old, members)
        if new != old:
            tokens[at:end] = lay_out(new, mark, indent_of(tokens, at), lines[0].line)
            if not new:
                drop_empty_line(tokens, at, mark)
        at += 1 if new != old else end - at
    return tokens


def end_of_paragraph(tokens, at):
    """Returns the index after a paragraph of comments, or None if none starts there."""
    if not is_text(tokens[at]):
        return None
    mark = re.match(r"//[/!]?", tokens[at].text)[0]
    end = at + 1
    while end + 1 < len(tokens) and tokens[end].kind == "space" and tokens[end].text.count("\n") == 1 and is_text(tokens[end + 1]):
        if re.match(r"//[/!]?", tokens[end + 1].text)[0] != mark:
            break
        end += 2
    return end


def is_text(token):
    """Returns whether a token is a line of running text in a comment."""
    return token.kind == "comment" and re.match(r"//[/!]? [^ #`*|>-]|//[/!]? `", token.text) is not None


def without_ghosts(text, members):
    for word in GHOST_TYPES.values():
        one = word.removesuffix("s")
        text = re.sub(rf", (?:and (?:it )?counts|with) (?:its|their|the|each|one) {one}s?\b(?: counted and without)?", "", text)
        few = rf"\b(?:makes|counts) (?:no|a|one|at most one) {one}s?\b|\bCounts (?:its|the) {one}s?\b"
        text = without_sentences(text, rf"`{word}`|\b(?:[Tt]he|of) {word}\b|{few}|\b[Ee]ach {one}\b")
    named = [name for name in members if f"`{name}`" in text]
    if named:
        text = without_sentences(text, r"\b(?:%s)\b" % "|".join(named))
    return text


def without_sentences(text, pattern):
    if re.search(pattern, text) is None:
        return text
    sentences = re.split(r"(?<=[.!?:]) (?=[A-Z`\[])", text)
    return " ".join(part for part in sentences if not re.search(pattern, part))


def indent_of(tokens, at):
    return tokens[at - 1].text.rpartition("\n")[2] if at > 0 and tokens[at - 1].kind == "space" else ""


def lay_out(text, mark, indent, line):
    """Returns comment tokens of a paragraph."""
    found = []
    for part in textwrap.wrap(text, COLUMNS - len(indent) - len(mark) - 1, break_long_words=False, break_on_hyphens=False):
        found += [Token("comment", f"{mark} {part}", line), Token("space", "\n" + indent, line)]
    return found[:-1]


def drop_empty_line(tokens, at, mark):
    """Drops the empty line of documentation before a paragraph that was dropped."""
    while at > 0 and tokens[at - 1].kind == "space":
        at -= 1
    if at > 0 and tokens[at - 1].text.rstrip() == mark:
        end = at
        while end < len(tokens) and tokens[end].kind == "space":
            end += 1
        del tokens[at - 1 : end]
