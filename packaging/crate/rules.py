"""The rules that erase contracts and rewrite what Rust writes otherwise, construct by construct."""

import re
from collections import Counter

from exports import write_exports
from rattle_tokens import (
    SourceError,
    Token,
    after,
    closing,
    drop_remarks,
    end_of,
    match,
    pattern_of,
    text_at,
    tokens_of,
)

# How often each rule was used.
COUNTS = Counter()
# The names that occur in erased text, by which an import is known to serve clauses alone.
GHOST_WORDS = ("ghost", "requires", "ensures")
LEFT_OVERS = (*GHOST_WORDS, "prove", "prove_eq", "prove_ne", "Model", "tactic", "also_owns")
# Attributes that mean the same in Rust.
RUST_ATTRIBUTES = {
    "allow", "cfg", "cold", "derive", "doc", "expect", "inline", "must_use", "non_exhaustive",
    "repr", "test", "track_caller", "default", "unsafe",
}  # fmt: skip


def drop_ghosts(tokens, dropped, members):
    """Drops clauses, ghost items, `impl Model for` and attributes that serve the check.

    Adds the names that occur in dropped text to `dropped`, and those of ghost members to `members`.
    """
    out, at = [], 0
    while at < len(tokens):
        token = tokens[at]
        if token.is_name("ghost"):
            end = end_of_ghost(tokens, at, out)
            if text_at(tokens, after(tokens, after(tokens, at))) == ":":
                members.add(text_at(tokens, after(tokens, at)))
        elif token.is_name("requires", "ensures"):
            end = end_of_clause(tokens, at)
        elif token.is_name("impl") and is_model(tokens, at):
            COUNTS["impl Model for .."] += 1
            end = closing(tokens, end_of_head(tokens, at)) + 1
        elif token.is_punct("#"):
            at = keep_attribute(tokens, at, out)
            continue
        else:
            out.append(token)
            at += 1
            continue
        dropped.update(t.text for t in tokens[at:end] if t.kind == "name")
        at = end
    return out


def end_of_ghost(tokens, at, out):
    """Returns the index after `ghost use ..;` or a ghost member, field, law or clause."""
    name = after(tokens, at)
    if text_at(tokens, name) == "use":
        COUNTS["ghost use ..;"] += 1
        return end_of(tokens, name, ";") + 1
    COUNTS["ghost member, field, law or clause"] += 1
    last = [t for t in out if not t.is_blank()][-1:]
    if last and last[0].is_name("pub"):
        while out.pop().text != "pub":
            pass
    drop_remarks(out)
    mark = after(tokens, name)
    if not (name < len(tokens) and tokens[name].kind == "name"):
        raise SourceError(tokens[at].line, "no rule for this `ghost`: a name has to follow it")
    end = name
    while text_at(tokens, mark) in (":", "="):
        opened = after(tokens, mark)
        if text_at(tokens, opened) != "{":
            raise SourceError(tokens[at].line, "no rule for this `ghost`: its text has no braces")
        end = closing(tokens, opened)
        mark = after(tokens, end)
    if end == name:
        raise SourceError(tokens[at].line, "no rule for this `ghost`: it has no text")
    return mark + 1 if text_at(tokens, mark) in (";", ",") else end + 1


def end_of_clause(tokens, at):
    """Returns the index after a clause, with its name if it has one."""
    COUNTS[tokens[at].text] += 1
    opened = after(tokens, at)
    if opened < len(tokens) and tokens[opened].kind == "name":
        opened = after(tokens, opened)
    if text_at(tokens, opened) != "{":
        raise SourceError(tokens[at].line, f"no rule for this `{tokens[at].text}`: its text has no braces")
    end = closing(tokens, opened)
    follows = after(tokens, end)
    if text_at(tokens, follows) in ("requires", "ensures"):
        return follows
    return end + 1


def end_of_head(tokens, at):
    """Returns the index of the brace that opens an item's body."""
    while at < len(tokens) and not tokens[at].is_punct("{;"):
        at += 1
    return at


def is_model(tokens, at):
    """Returns whether this `impl` is one of the trait `Model`, which only clauses use."""
    head = [t.text for t in tokens[at : end_of_head(tokens, at)] if not t.is_blank()]
    return "Model" in head and "for" in head[head.index("Model") :]


def after_line(tokens, at):
    """Returns the index after a token and the space that follows it."""
    return at + (2 if at + 1 < len(tokens) and tokens[at + 1].kind == "space" else 1)


def keep_attribute(tokens, at, out):
    """Copies an attribute that Rust has too, and returns the index after it."""
    opened = after(tokens, at)
    if text_at(tokens, opened) == "!":
        opened = after(tokens, opened)
    if text_at(tokens, opened) != "[":
        out.append(tokens[at])
        return at + 1
    end = closing(tokens, opened)
    inside = [t for t in tokens[opened + 1 : end] if not t.is_blank()]
    name, line = inside[0].text, tokens[at].line
    if name == "tactic":
        COUNTS["#[tactic(..)]"] += 1
        return after_line(tokens, end)
    if name == "rattlefmt":
        inside[0] = Token("name", "rustfmt", line)
    elif name not in RUST_ATTRIBUTES:
        raise SourceError(line, f"no rule for the attribute `{name}`")
    if [token.text for token in inside] == ["inline", "(", "always", ")"]:
        # A build for debugging compiles many times as long if it inlines.
        inside = tokens_of("cfg_attr(not(debug_assertions), inline(always))", line)
    if name == "derive":
        COUNTS["Drop in #[derive(..)]"] += any(t.text == "Drop" for t in inside)
        traits = [t.text for t in inside[2:-1] if t.text not in (",", "Drop")]
        if not traits:
            return after_line(tokens, end)
        inside = [*inside[:2], *tokens_of(", ".join(traits), line), inside[-1]]
    out.extend([*tokens[at : opened + 1], *inside, tokens[end]])
    return end + 1


# What a form of Rattle becomes. `$name` is any one token.
FORMS = [
    # A formatter of Rattle has its writer's type. In `fmt` it is Rust's; elsewhere any writer.
    (
        "fn fmt<$w: fmt::Write>(&self, $f: &mut fmt::Formatter<$w>)",
        "fn fmt(&self, $f: &mut fmt::Formatter<'_>)",
    ),
    ("fmt::Formatter<$w>", "$w"),
    # Any value may be dropped.
    (": Drop +", ":"),
    ("+ Drop", ""),
    (": Drop", ""),
    # What is proved need not run in a release build.
    ("const _: () = prove!(", "const _: () = assert!("),
    ("prove!(", "debug_assert!("),
    ("prove_eq!(", "debug_assert_eq!("),
    ("prove_ne!(", "debug_assert_ne!("),
    # A panic takes no handle.
    ("assert!($h; false,", "panic!("),
    ("assert!($h;", "assert!("),
    ("assert_eq!($h;", "assert_eq!("),
    ("assert_ne!($h;", "assert_ne!("),
    ("final fn", "fn"),
    # Methods that take the allocator, which Rust's methods of these names do not.
    *((f".{name}({first}", f".{name}_in({first}") for name in ("repeat", "collect", "to_vec") for first in ("alloc", "rt.alloc()")),
    (".collect::<Vec<$t>>(", ".collect_in::<Vec<$t>>("),
    (".clone()?", ".clone()"),
]
FORMS = [(pattern_of(form), replacement) for form, replacement in FORMS]


def rewrite_forms(tokens):
    """Rewrites each form of `FORMS`."""
    out, at = [], 0
    while at < len(tokens):
        for pattern, replacement in FORMS:
            end, bound = match(tokens, at, pattern)
            if end is not None:
                COUNTS[" ".join(pattern)] += 1
                text = re.sub(r"\$\w+", lambda found, bound=bound: bound[found.group()], replacement)
                out.extend(tokens_of(text, tokens[at].line))
                at = end
                break
        else:
            out.append(tokens[at])
            at += 1
    return out


RUNTIME = pattern_of("(rt: HostRuntime)")
MAIN = pattern_of("fn main(rt: HostRuntime)")


def make_runtimes(tokens):
    """Makes `fn main(rt: HostRuntime)` take nothing; its body makes the runtime if it uses it.

    A test's function is made so too. A file of the package's folder `bin` calls `main`, so it is
    public.
    """
    out, at = [], 0
    while at < len(tokens):
        if match(tokens, at, MAIN)[0] is not None:
            out.extend(tokens_of("pub ", tokens[at].line))
        end, _ = match(tokens, at, RUNTIME)
        if end is None:
            out.append(tokens[at])
            at += 1
            continue
        COUNTS[" ".join(RUNTIME)] += 1
        line = tokens[at].line
        opened = end_of_head(tokens, end)
        body = tokens[opened : closing(tokens, opened)]
        out.extend([*tokens_of("()", line), *tokens[end : opened + 1]])
        if any(t.is_name("rt") for t in body):
            out.extend(tokens_of(" let rt = HostRuntime;", line))
        at = opened + 1
    return out


def refuse_left_overs(tokens):
    """Fails at a ghost keyword, or a character past ASCII outside of strings, that no rule knows."""
    for token in tokens:
        if token.is_name(*LEFT_OVERS):
            raise SourceError(token.line, f"no rule for `{token.text}`")
        if token.kind in ("name", "punct", "lifetime") and not token.text.isascii():
            raise SourceError(token.line, f"no rule for `{token.text}` outside of a clause")
        if token.is_punct("'"):
            raise SourceError(token.line, "no rule for this `'`")


def erase(text, dropped, members):
    """Returns the tokens of a source text without its contracts, in Rust's forms."""
    tokens, exports = write_exports(drop_ghosts(tokens_of(text), dropped, members))
    COUNTS["exported function"] += exports
    return rewrite_forms(tokens)
