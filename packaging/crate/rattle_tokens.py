"""Splits Rust and Rattle source into tokens, and matches short token patterns."""

import re

TOKEN = re.compile(
    r"""(?P<space>\s+)
  |(?P<comment>//[^\n]*)
  |(?P<block>/\*)
  |(?P<string>[bc]?"(?:\\.|[^"\\])*"|[bc]?r(?P<hashes>\#*)".*?"(?P=hashes))
  |(?P<prime>(?<=[\w)])(?<!\bb)'+)
  |(?P<char>b?'(?:\\(?:x[0-9a-fA-F]{2}|u\{[0-9a-fA-F_]+\}|.)|[^'\\\n])')
  |(?P<lifetime>'[^\W\d]\w*)
  |(?P<number>\d\w*(?:\.\d\w*)?)
  |(?P<name>[^\W\d]\w*)
  |(?P<punct>::|->|=>|\.\.=|\.\.|.)""",
    re.X | re.S,
)
OPENING, CLOSING = set("([{"), set(")]}")


class SourceError(Exception):
    """A source that the eraser cannot read, with the line where it stopped."""

    def __init__(self, line, text):
        super().__init__(text)
        self.line, self.text = line, text


class Token:
    """One token: its kind, its text and the line where it begins."""

    __slots__ = ("kind", "line", "text")

    def __init__(self, kind, text, line):
        self.kind, self.text, self.line = kind, text, line

    def is_blank(self):
        return self.kind in ("space", "comment")

    def is_punct(self, texts):
        return self.kind == "punct" and self.text in texts

    def is_name(self, *texts):
        return self.kind == "name" and self.text in texts


def end_of_block_comment(text, at):
    """Returns the index after a block comment, which may contain others."""
    depth = 0
    for found in re.finditer(r"/\*|\*/", text[at:]):
        depth += 1 if found.group() == "/*" else -1
        if depth == 0:
            return at + found.end()
    return len(text)


def tokens_of(text, line=1):
    """Splits a text into tokens; the first one is on the given line."""
    tokens, at = [], 0
    while at < len(text):
        found = TOKEN.match(text, at)
        kind, end = found.lastgroup, found.end()
        if kind == "hashes":
            kind = "string"
        elif kind == "prime":
            kind = "punct"
        elif kind == "block":
            kind, end = "comment", end_of_block_comment(text, at)
        tokens.append(Token(kind, text[at:end], line))
        line += text.count("\n", at, end)
        at = end
    return tokens


def after(tokens, at):
    """Returns the index of the next token that is neither space nor comment."""
    at += 1
    while at < len(tokens) and tokens[at].is_blank():
        at += 1
    return at


def text_at(tokens, at):
    """Returns the token's text, or an empty text past the end."""
    return tokens[at].text if at < len(tokens) else ""


def closing(tokens, at):
    """Returns the index of the bracket that closes the one at an index."""
    depth = 0
    for place in range(at, len(tokens)):
        if tokens[place].kind == "punct":
            depth += (tokens[place].text in OPENING) - (tokens[place].text in CLOSING)
            if depth == 0:
                return place
    raise SourceError(tokens[at].line, f"no bracket closes this `{tokens[at].text}`")


def end_of(tokens, at, ends):
    """Returns the index of the first of these tokens that no bracket encloses."""
    start = at
    while at < len(tokens):
        if tokens[at].is_punct(ends):
            return at
        if tokens[at].is_punct(OPENING):
            at = closing(tokens, at)
        at += 1
    raise SourceError(tokens[start].line, f"no `{'` or `'.join(sorted(ends))}` follows")


def is_remark(token):
    """Returns whether a token is a comment that documents no item."""
    return token.kind == "comment" and not re.match(r"///(?!/)|//!|/\*[*!]", token.text)


def drop_remarks(out):
    """Removes the plain comments at the end, which were about what is dropped next."""
    line = out[-1].line if out else 1
    while out and (out[-1].kind == "space" or is_remark(out[-1])):
        out.pop()
    out.append(Token("space", "\n", line))


def pattern_of(text):
    """Reads a pattern: tokens, and `$name` for any one token."""
    parts = []
    for token in tokens_of(text):
        if parts and parts[-1] == "$":
            parts[-1] = "$" + token.text
        elif not token.is_blank():
            parts.append(token.text)
    return parts


def match(tokens, at, pattern):
    """Returns the index after a pattern's match and what its `$name`s are, or (None, {})."""
    bound = {}
    if tokens[at].text != pattern[0] or tokens[at].kind in ("string", "comment"):
        return None, bound
    last = at
    for part in pattern:
        text = text_at(tokens, at)
        if part.startswith("$"):
            if bound.setdefault(part, text) != text:
                return None, {}
        elif text != part:
            return None, {}
        last, at = at, after(tokens, at)
    return last + 1, bound


def leaves_of(tokens, prefix=()):
    """Returns the paths of a use tree as tuples; `a as b` is one name."""
    path, at = list(prefix), 0
    while at < len(tokens):
        text = tokens[at].text
        if text == "{":
            return leaves_of_group(tokens[at + 1 : -1], path)
        if text == "as":
            path[-1] += " as " + tokens[at + 1].text
            break
        if text == "self" and path:
            break
        if text != "::":
            path.append(text)
        at += 1
    return [tuple(path)]


def leaves_of_group(tokens, path):
    """Returns the paths of the group between a use tree's braces."""
    leaves, start, depth = [], 0, 0
    for at, token in enumerate([*tokens, Token("punct", ",", 0)]):
        depth += (token.text == "{") - (token.text == "}")
        if token.text == "," and depth == 0:
            if at > start:
                leaves += leaves_of(tokens[start:at], path)
            start = at + 1
    return leaves
