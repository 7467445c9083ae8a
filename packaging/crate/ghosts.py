"""Drops values of ghost types, and functions that only state a law.

A value of a ghost type occupies no memory: it counts for the proof alone. Its parameters,
arguments, fields and statements are dropped. A function that only supplies such a value to another
one is dropped too, and the other gets its name.
"""

import re

from rattle_tokens import SourceError
from trees import all_items, drop_item, flat, is_group, items_of, solid, split_at

# The ghost types, whose size `prove!` shows to be zero next to each, and the word for what a value
# of one counts.
GHOST_TYPES = {"Looks": "looks", "RunLooks": "looks", "Comparisons": "comparisons"}


def names_ghost_type(items):
    return any(token.is_name(*GHOST_TYPES) for token in flat(items))


def is_ghost_declaration(items):
    """Returns whether these are a name, a colon and a ghost type, perhaps by reference."""
    words = [item.text for item in solid(items) if item.text not in (",", "pub", "mut", "&") and item.kind != "lifetime"]
    words = [word for word in words if not word.startswith("(")]
    return len(words) == 3 and words[1] == ":" and words[2] in GHOST_TYPES


def declared_name(items):
    return next(item.text for item in solid(items) if item.kind == "name" and item.text not in ("pub", "mut"))


def fields_of(tree):
    """Returns the names of the fields that have a ghost type."""
    found = set()
    for item in all_items(tree):
        if item.word == "struct" and item.body() is not None:
            parts = split_at(item.body().items, ",", angles=True)
            found |= {declared_name(part) for part in parts if is_ghost_declaration(fieldless(part))}
    return found


def fieldless(part):
    """Returns a field's declaration without its attributes and documentation."""
    items = solid(part)
    while items and items[0].is_punct("#"):
        items = items[2:]
    return items


class Dropper:
    """Drops the ghost values of one module."""

    def __init__(self, fields):
        self.fields = fields
        # Names by which the function in hand has a ghost value.
        self.names = set()
        # The functions that were dropped, by the name of the one that they called.
        self.renamed = {}
        self.dropped_an_argument = False

    def drop(self, tree):
        for item in reversed(items_of(tree)):
            body = item.body()
            if self.is_about_ghosts(item):
                drop_item(item)
            elif item.word == "struct" and body is not None:
                body.items[:] = [
                    part for field in split_at(body.items, ",", angles=True) if not is_ghost_declaration(fieldless(field)) for part in field
                ]
            elif item.word == "fn":
                self.drop_in_function(item)
            elif item.word in ("impl", "trait", "mod") and body is not None:
                self.drop(body.items)
        for item in items_of(tree):
            token = next((token for token in flat(item.parts()) if token.is_name(*GHOST_TYPES)), None)
            if item.word != "use" and token is not None:
                raise SourceError(token.line, f"no rule for this use of the ghost type `{token.text}`")

    def is_about_ghosts(self, item):
        if item.word in ("struct", "enum", "type"):
            return item.name in GHOST_TYPES
        if item.word in ("const", "static"):
            return names_ghost_type(item.parts())
        return item.word == "impl" and names_ghost_type(item.head())

    def drop_in_function(self, item):
        parameters = item.parameters()
        self.names = set()
        kept = []
        for part in split_at(parameters.items, ",", angles=True):
            if is_ghost_declaration(part):
                self.names.add(declared_name(part))
            else:
                kept.append(part)
        parameters.items[:] = [item for part in kept for item in part]
        body = item.body()
        if body is None:
            return
        self.dropped_an_argument = False
        self.drop_in(body)
        if self.dropped_an_argument and not self.names:
            called = only_call(body, parameters)
            if called is not None:
                self.renamed[called] = item.name
                drop_item(item)
                return
        for token in flat(body.items):
            if token.is_name(*self.names, *self.fields):
                raise SourceError(token.line, f"no rule for this use of the ghost value `{token.text}`")

    def drop_in(self, group):
        """Drops ghost values in a group of a function's body."""
        if group.open.text == "{":
            self.drop_statements(group.items)
            self.drop_fields(group.items)
        elif group.open.text == "(":
            parts = split_at(group.items, ",")
            kept = [part for part in parts if not self.is_ghost(part)]
            if len(kept) < len(parts):
                self.dropped_an_argument = True
                group.items[:] = [item for part in kept for item in part]
        for item in group.items:
            if is_group(item, "([{"):
                self.drop_in(item)

    def drop_statements(self, items):
        at, starts = 0, True
        while at < len(items):
            if starts and not items[at].is_blank():
                end = next((k for k in range(at, len(items)) if items[k].is_punct(";")), len(items) - 1)
                if self.is_ghost_statement(items[at:end]):
                    del items[at : end + 1]
                    continue
            if not items[at].is_blank():
                starts = items[at].is_punct(";") or is_group(items[at], "{")
            at += 1

    def is_ghost_statement(self, items):
        words = solid(items)
        if not words:
            return False
        if words[0].is_name("let"):
            start = 2 if words[1].is_name("mut") else 1
            if len(words) > start + 2 and words[start + 1].is_punct("=") and self.is_ghost(words[start + 2 :]):
                self.names.add(words[start].text)
                return True
            return False
        assigned = next((k for k, word in enumerate(words) if word.is_punct("=")), None)
        if assigned is not None:
            return self.is_ghost(words[:assigned])
        called = len(words) > 3 and is_group(words[-1], "(") and words[-3].is_punct(".")
        return called and self.is_ghost(words[:-3])

    def drop_fields(self, items):
        """Drops ghost fields of a struct's value."""
        parts = split_at(items, ",")
        kept = [part for part in parts if not self.is_ghost_field(solid(part))]
        if len(kept) < len(parts):
            items[:] = [item for part in kept for item in part]

    def is_ghost_field(self, words):
        if not words or not words[0].is_name(*self.fields):
            return False
        return len(words) == 1 or words[1].text in (":", ",")

    def is_ghost(self, items):
        """Returns whether these are an expression of a ghost type."""
        words = solid(items)
        while words and (words[0].text in ("&", "*", "mut")):
            words = words[1:]
        if words and words[-1].is_punct(","):
            words = words[:-1]
        if not words or words[0].kind != "name":
            return False
        if words[0].is_name(*GHOST_TYPES) or [word.text for word in words[:3]] == ["mem", "::", "replace"]:
            made = len(words) == 4 and is_group(words[3], "(")
            return made and (words[0].is_name(*GHOST_TYPES) or self.is_ghost(split_at(words[3].items, ",")[0]))
        if len(words) == 1:
            return words[0].text in self.names
        path = all(word.kind == "name" if at % 2 == 0 else word.is_punct(".") for at, word in enumerate(words))
        return path and len(words) % 2 == 1 and (words[-1].text in self.fields or words[0].text in self.names)


def only_call(body, parameters):
    """Returns the name of the function that a body only calls with the parameters of its own."""
    words = solid(body.items)
    if len(words) < 2 or not is_group(words[-1], "(") or words[-2].kind != "name":
        return None
    if any(word.kind == "group" or word.text not in ("self", ".", "Self", "::") and word.text[0].islower() for word in words[:-2]):
        return None
    given = [[word.text for word in solid(part) if word.text != ","] for part in split_at(words[-1].items, ",")]
    own = [names_before_colon(part) for part in split_at(parameters.items, ",", angles=True)]
    own = [names for names in own if names and "self" not in names]
    return words[-2].text if [part for part in given if part] == own else None


def names_before_colon(part):
    words = [word.text for word in solid(part) if word.text not in (",", "&", "mut")]
    return words[: words.index(":")] if ":" in words else words


def is_law_item(item):
    """Returns whether a function has an empty body and no result, so that it only states a law."""
    body = item.body()
    return item.word == "fn" and body is not None and not solid(body.items) and not any(i.is_punct("->") for i in item.head())


def drop_laws(tree):
    """Drops the functions that only state laws, outside of traits and `impl`s."""
    count = 0
    for item in reversed(items_of(tree)):
        if is_law_item(item):
            drop_item(item)
            count += 1
        elif item.word == "mod" and item.body() is not None:
            count += drop_laws(item.body().items)
    return count


def rename(tokens, names):
    """Renames functions, also where documentation names them."""
    for token in tokens:
        if token.kind == "name":
            token.text = names.get(token.text, token.text)
        elif token.kind == "comment":
            token.text = re.sub(r"`(\w+)`", lambda found: f"`{names.get(found[1], found[1])}`", token.text)
