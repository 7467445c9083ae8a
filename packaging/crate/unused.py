"""Finds what nothing uses once the contracts are gone, and what only a feature's modules use."""

import re

from rattle_tokens import after, text_at, tokens_of
from trees import drop_item, flat, is_group, items_of, solid, split_at, tree_of

# What a module or an item needs. Each includes those before it.
FEATURES = ("", "std", "stream", "test", "test stream")
# Items that have a name by which others use them.
NAMED = ("fn", "const", "static", "struct", "enum", "type", "trait")


def most(*features):
    return max(features, key=FEATURES.index)


def least(features):
    return min(features, key=FEATURES.index)


class Named:
    """A named item of a module, and what it needs."""

    def __init__(self, module, item, is_free, owner=""):
        self.module, self.item, self.name = module, item, item.name
        # The type whose `impl` it is a member of, if it is one.
        self.owner = owner
        self.needs = ""
        self.is_dead = False
        # Whether it is no member of an `impl`, and whether only its module and those below know it.
        self.is_free = is_free
        self.is_private = "pub" not in item.qualifiers()


class Use:
    """A place where a name stands: its module, the named items that it is in, and what is before it.

    That is a `.`, or a path, which is empty if there is none.
    """

    def __init__(self, module, within, is_member=False, path=()):
        self.module, self.within, self.is_member, self.path = module, within, is_member, path

    def is_dead(self):
        return any(item.is_dead for item in self.within)

    def is_in(self, owner):
        """Returns whether it is `Self` in an `impl` of this type."""
        return self.path[-1:] == ("Self",) and any(item.name == owner for item in self.within)

    def needs(self):
        return most(self.module.feature, *(item.needs for item in self.within))


class Usage:
    """The named items of a package's modules, and where each name stands.

    `others` are the hand-written modules, and those of the packages above this one.
    """

    def __init__(self, modules, others):
        self.items, self.uses = [], {}
        # What a hand-written module passes on. Its members are for callers.
        self.passed_on = set()
        # The free items by their modules' paths and their names.
        self.placed = {}
        self.trees = {module: tree_of(module.tokens) for module in modules}
        for module, tree in self.trees.items():
            # What the `impl`s of a type name is not a use of the type.
            self.types = {item.name: Named(module, item, True) for item in items_of(tree) if item.word in ("struct", "enum")}
            self.read(module, tree, (), True)
        for module in others:
            self.add_all(module, module.tokens, ())
            for _, visibility, leaves in module.uses:
                for leaf in leaves if visibility or module.is_above else []:
                    self.passed_on.add(leaf[-1].split(" as ")[0])
                    self.uses.setdefault(leaf[-1].split(" as ")[0], []).append(Use(module, ()))

    def read(self, module, items, within, is_free, parent="file", owner=""):
        at = 0
        for item in items_of(items):
            self.add_all(module, items[at : item.start], within)
            at = item.end
            inner = within
            if is_free and item.word in NAMED and item.name and item.name != "_" and not is_test(item):
                named = self.types.get(item.name) if item.word in ("struct", "enum") else None
                named = named or Named(module, item, parent != "impl", owner)
                self.items.append(named)
                if parent == "file":
                    self.placed[(*module.root(), item.name)] = named
                inner = (*within, named)
            if item.word in ("impl", "trait", "mod") and item.body() is not None:
                about = self.types.get(impl_of(item))
                inner = (*inner, about) if about else inner
                self.read_head(module, item, inner)
                own = item.word == "mod" or item.word == "impl" and not any(i.is_name("for") for i in item.head())
                self.read(module, item.body().items, inner, own, item.word, impl_of(item) if item.word == "impl" else "")
            else:
                self.add_all(module, item.parts(), inner)
        self.add_all(module, items[at:], within)

    def read_head(self, module, item, within):
        """Adds the names of a head, except the one that an `impl` is about."""
        head = item.items[item.start : item.end - 1]
        about = impl_of(item)
        for token in flat(head):
            if token.text != about:
                self.add(module, token, within)

    def add_all(self, module, items, within):
        previous, path = "", ()
        # Paths with generic arguments, and how many `<` of them are open.
        outer = []
        for token in flat(items):
            if token.is_blank():
                continue
            if token.text == "<" and previous == "::":
                outer.append((path, 1))
                path = ()
            elif token.text in ("<", ">") and outer:
                before, depth = outer.pop()
                depth += 1 if token.text == "<" else -1
                if depth:
                    outer.append((before, depth))
                path = () if depth else before
            elif token.text != "::" and previous != "::":
                path = ()
            if previous != "fn":  # A function of the same name is no use.
                self.add(module, token, within, previous == ".", path)
            if token.kind == "name":
                path = (*path, token.text)
            previous = token.text

    def add(self, module, token, within, is_member=False, path=()):
        if token.kind == "name":
            self.uses.setdefault(token.text, []).append(Use(module, within, is_member, path))
        elif token.kind == "string":
            for name in re.findall(r"\{(\w+)", token.text):
                self.uses.setdefault(name, []).append(Use(module, within))

    def uses_of(self, named):
        uses = [use for use in self.uses.get(named.name, []) if named not in use.within]
        if named.is_free:
            uses = [use for use in uses if not use.is_member]
            # A path to an item names no other.
            uses = [use for use in uses if self.placed.get((*use.path, named.name), named) is named]
        elif named.owner and named.owner not in self.passed_on:
            # A member that a path names is of the type in the path.
            uses = [use for use in uses if not use.path or use.path[-1] == named.owner or use.is_in(named.owner)]
        if named.is_private:
            own = named.module.path
            uses = [use for use in uses if use.module in self.trees and use.module.path[: len(own)] == own]
        return uses

    def find_dead(self):
        """Marks the items that no other item names."""
        more = True
        while more:
            more = False
            for named in self.items:
                if not named.is_dead and all(use.is_dead() for use in self.uses_of(named)):
                    named.is_dead = more = True

    def find_needs(self):
        """Finds the items that only items with a feature name."""
        more = True
        while more:
            more = False
            for named in self.items:
                uses = [] if named.is_dead else [use for use in self.uses_of(named) if not use.is_dead()]
                needs = least([use.needs() for use in uses]) if uses else ""
                if FEATURES.index(needs) > FEATURES.index(most(named.needs, named.module.feature)):
                    named.needs, more = needs, True

    def needs_of_name(self, module, name):
        """Returns what all of a module's uses of a name need, or None if it has none."""
        uses = [use.needs() for use in self.uses.get(name, []) if use.module is module and not use.is_dead()]
        return least(uses) if uses else None

    def drop_dead(self):
        """Drops the dead items with their `impl`s, and returns the names that they had in them."""
        dropped = {}
        for module, tree in self.trees.items():
            dead = [named for named in self.items if named.module is module and named.is_dead]
            types = {named.name for named in dead if named.item.word in ("struct", "enum")}
            gone = [token for named in dead for token in flat(named.item.parts())]
            remove(tree, {id(named.item.token) for named in dead}, types)
            dropped[module] = {token.text for token in gone if token.kind == "name"}
            module.tokens = list(flat(tree))
        return dropped


def remove(items, keywords, types):
    for item in reversed(items_of(items)):
        if id(item.token) in keywords or (item.word == "impl" and impl_of(item) in types):
            drop_item(item)
        elif item.word in ("impl", "mod") and item.body() is not None:
            remove(item.body().items, keywords, types)
            if item.word == "impl" and not any(i.is_name("for") for i in item.head()) and not items_of(item.body().items):
                drop_item(item)


def impl_of(item):
    """Returns the name of the type that an `impl` is about, or an empty text."""
    if item.word != "impl":
        return ""
    head = [token for token in flat(item.head()) if not token.is_blank()]
    words = [token.text for token in head]
    start = words.index("for") + 1 if "for" in words else 1
    if "for" not in words and words[1] == "<":
        depth = 0
        for start, word in enumerate(words[1:], 2):
            depth += (word == "<") - (word == ">")
            if depth == 0:
                break
    while start < len(words) and head[start].kind != "name":
        start += 1
    while start + 2 < len(words) and words[start + 1] == "::":
        start += 2
    return words[start] if start < len(words) else ""


def is_test(item):
    """Returns whether an item is a test."""
    return "#[test]" in [a + b for a, b in zip(item.qualifiers(), item.qualifiers()[1:])]


def drop_labels(tree):
    """Drops the labels that nothing names."""
    tokens = list(flat(tree))
    names = [token.text for token in tokens if token.kind == "lifetime"]
    for at, token in enumerate(tokens):
        follows = after(tokens, at)
        if (
            token.kind == "lifetime"
            and text_at(tokens, follows) == ":"
            and text_at(tokens, after(tokens, follows)) in ("while", "for", "loop", "{")
        ):
            if names.count(token.text) == 1:
                token.text = tokens[follows].text = ""
                token.kind = tokens[follows].kind = "space"


# The calls that only return a part or a property of a value.
PROPERTIES = ("as_bytes", "as_str", "len", "is_empty")


def only_reads(words):
    """Returns whether an expression has no call but those of `PROPERTIES`, so that nothing happens if it is dropped."""
    for before, word in zip([None, *words], words):
        if is_group(word, "([{"):
            if word.open.text != "(" or solid(word.items) or before is None or not before.is_name(*PROPERTIES):
                return False
        elif word.text in ("?", "!"):
            return False
    return True


def drop_unread(items):
    """Drops a `let` of a name that begins with `_` if its value is only read: it served the proof.

    A value that a call made stays. The call may do something, and the value may do something when it is dropped.
    """
    for group in items:
        if is_group(group, "([{"):
            drop_unread(group.items)
    starts, at = True, 0
    while at < len(items):
        if starts and items[at].is_name("let"):
            end = next(k for k in range(at, len(items)) if items[k].is_punct(";"))
            words = solid(items[at:end])
            if re.fullmatch(r"_\w+", words[1].text) and words[2].text == "=" and only_reads(words[3:]):
                start = at
                while start > 0 and items[start - 1].is_blank():
                    start -= 1
                del items[start : end + 1]
                at = start
                continue
        if not items[at].is_blank():
            starts = items[at].is_punct(";") or is_group(items[at], "{")
        at += 1


def unread_parameters(tree, family, is_test_module):
    """Yields functions of a module, with the places of parameters that their bodies do not name.

    `family` are the trees of the modules that alone can call them.
    """
    for item in private_functions(tree, is_test_module):
        if item.body() is None:
            continue
        named = {token.text for token in flat(item.body().items) if token.kind == "name"}
        for token in flat(item.body().items):
            if token.kind == "string":
                named |= set(re.findall(r"\{(\w+)", token.text))
        parts = [part for part in split_at(item.parameters().items, ",", angles=True) if solid(part)]
        is_method = bool(parts) and any(token.is_name("self") for token in flat(parts[0]))
        unread = []
        for at, part in enumerate(parts):
            words = [word.text for word in solid(part) if word.text != "mut"]
            if len(words) > 2 and words[1] == ":" and words[0] not in named and not words[0].startswith("_"):
                unread.append(at - is_method)
        if unread:
            calls = calls_of(item.name, family)
            if calls is not None:
                yield item, parts, is_method, unread, calls


def private_functions(tree, is_test_module):
    for item in items_of(tree):
        if item.word == "fn" and (is_test_module or "pub" not in item.qualifiers()) and not is_test(item) and item.name != "main":
            yield item
        elif item.word == "impl" and not any(i.is_name("for") for i in item.head()):
            yield from private_functions(item.body().items, is_test_module)


def calls_of(name, family):
    """Returns the groups of arguments of all calls of a function, or None if it is used otherwise or not."""
    calls = []
    definitions = 0
    for tree in family:
        uses = {id(other) for item in items_of(tree) if item.word == "use" for other in item.parts()}
        for items in lists_of([other for other in tree if id(other) not in uses]):
            words = solid(items)
            for at, word in enumerate(words):
                if not word.is_name(name):
                    continue
                if at > 0 and words[at - 1].is_name("fn"):
                    definitions += 1
                elif at + 1 < len(words) and is_group(words[at + 1], "("):
                    calls.append(words[at + 1])
                else:
                    return None
    return calls if definitions == 1 and calls else None


def lists_of(items):
    yield items
    for item in items:
        if is_group(item, "([{"):
            yield from lists_of(item.items)


def drop_unread_parameters(trees):
    """Drops the parameters that private functions do not name, with the arguments of their calls.

    `trees` has the trees of a crate's modules by their paths. Returns whether there was one.
    """
    found = False
    for path, tree in trees.items():
        # What is public in a test's module is known to the crate's tests alone.
        top = path[: path.index("tests") + 1] if "tests" in path else path
        family = [other for place, other in trees.items() if place[: len(top)] == top]
        for item, parts, is_method, unread, calls in list(unread_parameters(tree, family, "tests" in path)):
            arguments = [[part for part in split_at(call.items, ",") if solid(part)] for call in calls]
            if any(len(given) != len(parts) - is_method for given in arguments):
                continue
            if any(not is_plain(given[at]) for given in arguments for at in unread):
                continue
            found = True
            item.parameters().items[:] = [i for at, part in enumerate(parts) if at - is_method not in unread for i in part]
            for call, given in zip(calls, arguments):
                call.items[:] = [i for at, part in enumerate(given) if at not in unread for i in part]
    return found


def is_plain(part):
    """Returns whether an argument is a name, a field, a literal or a reference to one."""
    return all(
        word.kind in ("name", "number", "string", "char", "group") or word.text in ("&", ".", ",", "*", "::") for word in solid(part)
    ) and not any(is_group(word, "({") for word in solid(part))


def gate_of(feature):
    """Returns the attribute by which an item is left out without what it needs."""
    if feature == "test":
        return "#[cfg(test)]\n"
    if feature == "test stream":
        return '#[cfg(all(test, feature = "stream"))]\n'
    return f'#[cfg(feature = "{feature}")]\n' if feature else ""


def add_gates(usage):
    """Writes before each item, and before the `impl`s of a type, what it needs beyond its module."""
    for module, tree in usage.trees.items():
        needs = {id(named.item.token): named.needs for named in usage.items if named.module is module}
        types = {named.name: named.needs for named in usage.items if named.module is module and named.item.word in ("struct", "enum")}
        for items, item in [*reversed(list(placed_items(tree)))]:
            needed = types.get(impl_of(item), "") if item.word == "impl" else needs.get(id(item.token), "")
            if FEATURES.index(needed) > FEATURES.index(module.feature):
                at = item.start
                while items[at].is_blank():
                    at += 1
                items[at:at] = tokens_of(gate_of(needed), items[at].line)
        module.tokens = list(flat(tree))


def placed_items(items):
    """Yields the items of a tree with the lists that have them, in their order."""
    for item in items_of(items):
        yield items, item
        if item.word in ("impl", "mod") and item.body() is not None:
            yield from placed_items(item.body().items)
