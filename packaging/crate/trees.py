"""Token trees: a bracket with all up to the one that closes it is one `Group`."""

from rattle_tokens import SourceError, is_remark

OPENERS = {"(": ")", "[": "]", "{": "}"}


class Group:
    """A bracket, the tokens and groups in it, and the bracket that closes it."""

    __slots__ = ("close", "items", "open")
    kind = "group"

    def __init__(self, opened, items, close):
        self.open, self.items, self.close = opened, items, close

    @property
    def line(self):
        return self.open.line

    @property
    def text(self):
        return "".join(token.text for token in flat([self]))

    def is_blank(self):
        return False

    def is_punct(self, _):
        return False

    def is_name(self, *_):
        return False


def tree_of(tokens):
    """Returns the tokens as a list of tokens and groups."""
    stack = [[]]
    opened = []
    for token in tokens:
        if token.kind == "punct" and token.text in OPENERS:
            opened.append(token)
            stack.append([])
        elif opened and token.kind == "punct" and token.text == OPENERS[opened[-1].text]:
            items = stack.pop()
            stack[-1].append(Group(opened.pop(), items, token))
        else:
            stack[-1].append(token)
    if opened:
        raise SourceError(opened[-1].line, f"no bracket closes this `{opened[-1].text}`")
    return stack[0]


def flat(items):
    """Returns the tokens of a tree."""
    for item in items:
        if isinstance(item, Group):
            yield item.open
            yield from flat(item.items)
            yield item.close
        else:
            yield item


def text_of(items):
    return "".join(token.text for token in flat(items))


def is_group(item, opened):
    return isinstance(item, Group) and item.open.text in opened


def solid(items):
    """Returns the items that are neither space nor comment."""
    return [item for item in items if not item.is_blank()]


def groups_of(items):
    """Yields all groups, the outer ones first."""
    for item in items:
        if isinstance(item, Group):
            yield item
            yield from groups_of(item.items)


def next_solid(items, at):
    """Returns the index of the next item after `at` that is neither space nor comment."""
    at += 1
    while at < len(items) and items[at].is_blank():
        at += 1
    return at


def split_at(items, mark, angles=False):
    """Splits items at each token `mark`. The mark is the last item of each part but the last.

    If `angles` is true, the items have types, so a mark between `<` and `>` does not count.
    """
    parts, start, depth = [], 0, 0
    for at, item in enumerate(items):
        if angles:
            depth += item.is_punct(("<",)) - item.is_punct((">",))
        if item.is_punct((mark,)) and depth == 0:
            parts.append(items[start : at + 1])
            start = at + 1
    parts.append(items[start:])
    return parts


class Item:
    """An item of a module, an `impl` or a trait: its keyword, its name and its place in a tree."""

    def __init__(self, items, start, keyword, end):
        self.items, self.start, self.keyword, self.end = items, start, keyword, end
        self.token = items[keyword]
        self.word = self.token.text
        name = next_solid(items, keyword)
        self.name = items[name].text if name < end and items[name].kind == "name" else ""

    def parts(self):
        return self.items[self.start : self.end]

    def qualifiers(self):
        """Returns what comes before the keyword."""
        return [item.text for item in solid(self.items[self.start : self.keyword])]

    def head(self):
        """Returns the items from the keyword to the body."""
        end = self.end - 1 if is_group(self.items[self.end - 1], "{") else self.end
        return self.items[self.keyword : end]

    def body(self):
        last = self.items[self.end - 1]
        return last if is_group(last, "{") else None

    def parameters(self):
        """Returns the group of a function's parameters."""
        return next(item for item in self.items[self.keyword : self.end] if is_group(item, "("))


def items_of(items):
    """Returns the items of a module, an `impl` or a trait."""
    found, at = [], 0
    while at < len(items):
        start, keyword = prefix_of(items, at)
        if keyword >= len(items):
            break
        end = end_of_item(items, keyword)
        found.append(Item(items, start, keyword, end))
        at = end
    return found


def prefix_of(items, at):
    """Returns where an item with its comments, attributes and visibility starts, and its keyword."""
    start = None
    while at < len(items):
        item = items[at]
        if item.kind == "space":
            if start is not None and item.text.count("\n") > 1 and all(is_remark(i) or i.kind == "space" for i in items[start:at]):
                start = None
        elif item.kind == "comment":
            if item.text.startswith("//!"):
                start = None
            elif start is None:
                start = at
        else:
            start = at if start is None else start
            following = next_solid(items, at)
            inner = following < len(items) and items[following].is_punct("!")
            if item.is_punct("#") and (inner or is_group(items[following], "[")):
                at = next_solid(items, following) if inner else following
                start = None if inner else start
            elif item.is_name("pub", "unsafe", "extern", "async", "default") or is_group(item, "(") or item.kind == "string":
                pass
            elif item.is_name("const") and items[following].is_name("fn", "unsafe", "extern"):
                pass
            else:
                return start, at
        at += 1
    return len(items), len(items)


def end_of_item(items, at):
    """Returns the index after an item: after its body, or after the `;` that ends it."""
    if items[at].kind == "use":
        return at + 1  # Its text is elsewhere.
    stops_at_body = items[at].text not in ("use", "const", "static", "type", "let")
    while at < len(items):
        if items[at].is_punct(";"):
            return at + 1
        if stops_at_body and is_group(items[at], "{"):
            return at + 1
        at += 1
    return at


def names_in(items):
    """Returns the names in the items except imports."""
    uses = [(item.start, item.end) for item in items_of(items) if item.word == "use"]
    kept = [other for at, other in enumerate(items) if not any(start <= at < end for start, end in uses)]
    return {token.text for token in flat(kept) if token.kind == "name"}


def drop_item(item):
    """Removes an item from the list that has it."""
    del item.items[item.start : item.end]


def all_items(items):
    """Yields a module's items and those of its `impl`s, traits and inner modules."""
    for item in items_of(items):
        yield item
        if item.word in ("impl", "trait", "mod") and item.body() is not None:
            yield from all_items(item.body().items)
