"""Rewrites forms that the prover needs and Rust writes otherwise, as clippy would."""

from collections import Counter

from rattle_tokens import tokens_of
from trees import all_items, flat, groups_of, is_group, next_solid, solid, split_at, text_of, tree_of

COUNTS = Counter()


def tidy_module(tree):
    """Rewrites each form in a module."""
    for item in all_items(tree):
        if item.word == "fn" and item.body() is not None:
            elide_lifetime(item)
    tidy(tree)


def tidy(items):
    """Rewrites each form in a tree."""
    for item in items:
        if is_group(item, "([{"):
            tidy(item.items)
            if item.open.text == "{":
                return_at_once(item.items)
                end_at_panic(item.items)
    at = 0
    while at < len(items):
        for rule in RULES:
            found = rule(items, at)
            if found is not None:
                end, text = found
                COUNTS[rule.__doc__.split("\n")[0]] += 1
                items[at:end] = tree_of(tokens_of(text, items[at].line))
                break
        at += 1


def return_at_once(items):
    """`let x = e; x` at the end of a block is `e`."""
    last = [at for at, item in enumerate(items) if not item.is_blank()][-1:]
    if not last or items[last[0]].kind != "name":
        return
    ends = [at for at in range(last[0]) if items[at].is_punct(";")]
    if not ends or any(not item.is_blank() for item in items[ends[-1] + 1 : last[0]]):
        return
    start = next((at for at in range(ends[-1], -1, -1) if items[at].is_name("let")), None)
    words = solid(items[start : ends[-1]]) if start is not None else []
    if (
        len(words) > 3
        and words[1].text == items[last[0]].text
        and words[2].text == "="
        and not any(item.is_punct(";") for item in items[start : ends[-1]])
    ):
        equals = next(at for at in range(start, len(items)) if items[at].is_punct("="))
        COUNTS["`let x = e; x` is `e`."] += 1
        items[start : last[0] + 1] = items[equals + 1 : ends[-1]]


def end_at_panic(items):
    """What follows `panic!(..);` is not reached."""
    for at in range(len(items) - 3):
        starts = all(item.is_blank() for item in items[:at]) or next(
            item for item in reversed(items[:at]) if not item.is_blank()
        ).text.endswith((";", "}"))
        if starts and items[at].is_name("panic") and items[at + 1].is_punct("!") and items[at + 3].is_punct(";"):
            COUNTS["What follows `panic!(..);` is not reached."] += 1
            del items[at + 3 :]
            return


def elide_lifetime(item):
    """`fn f<'a>(x: &'a str) -> &'a str` is `fn f(x: &str) -> &str`."""
    head = item.head()
    words = solid(head)
    if len(words) < 6 or [words[2].text, words[4].text] != ["<", ">"] or words[3].kind != "lifetime":
        return
    name = words[3].text
    parameters = [token for token in flat(item.parameters().items) if not token.is_blank()]
    taken = [token for token in parameters if token.is_punct("&") or token.kind == "lifetime"]
    by_reference = len(taken) == 2 and parameters[parameters.index(taken[0]) + 1] is taken[1]
    if (
        [token.text for token in taken] != ["&", name][2 - len(taken) :]
        or len(taken) == 2
        and not by_reference
        or any(t.text == name for t in flat(item.body().items))
    ):
        return
    COUNTS[elide_lifetime.__doc__] += 1
    result = list(flat(head[head.index(item.parameters()) + 1 :]))
    for at, token in enumerate([*parameters, *result]):
        before = [*parameters, *result][at - 1] if at else token
        if token.text == name:
            token.text, token.kind = ("", "space") if before.is_punct("&") else ("'_", "lifetime")
    for token in words[2:5]:
        token.text, token.kind = "", "space"


def loop_over_indices(items, at):
    """`for k in 0..n { .. x[k] .. }` is `for part in x.iter().take(n) { .. *part .. }`."""
    words, places = [], [at]
    while len(words) < 7 and places[-1] < len(items):
        words.append(items[places[-1]])
        places.append(next_solid(items, places[-1]))
    if len(words) < 7 or [words[0].text, words[2].text, words[3].text, words[4].text] != ["for", "in", "0", ".."]:
        return None
    if words[5].kind != "name" or not is_group(words[6], "{"):
        return None
    index, indexed = words[1].text, set()
    for part in [words[6], *groups_of(words[6].items)]:
        for place, item in enumerate(part.items):
            if is_group(item, "[") and text_of(item.items).strip() == index and place > 0 and part.items[place - 1].kind == "name":
                indexed.add(part.items[place - 1].text)
    names = [token.text for token in flat(words[6].items) if token.is_name(index)]
    body = text_of(words[6].items)
    if len(indexed) != 1 or len(names) != body.count(f"{next(iter(indexed))}[{index}]"):
        return None
    name = next(iter(indexed))
    body = body.replace(f"{name}[{index}]", "*part")
    return places[6] + 1, f"for part in {name}.iter().take({words[5].text}) {{{body}}}"


def let_else(items, at):
    """`let Some(x) = e else { return None; };` is `let x = e?;`."""
    if not items[at].is_name("let"):
        return None
    end = next((k for k in range(at, len(items)) if items[k].is_punct(";")), None)
    words = solid(items[at:end])
    if len(words) < 7 or not words[1].is_name("Some") or not is_group(words[2], "(") or not words[-2].is_name("else"):
        return None
    if not is_group(words[-1], "{") or [word.text for word in solid(words[-1].items)][:2] != ["return", "None"]:
        return None
    if words[3].text != "=" or not is_chain(words[4:-2]):
        return None
    equals = next(k for k in range(at, end) if items[k].is_punct("="))
    last = next(k for k in range(end, at, -1) if items[k].is_name("else"))
    return end, f"let {text_of(words[2].items)} ={text_of(items[equals + 1 : last]).rstrip()}?"


def returned_error(items, at):
    """`if let Err(x) = e { return Err(x); }` is `e?;`."""
    if not items[at].is_name("if") or any(word.is_name("else") for word in solid(items[:at])[-1:]):
        return None
    body = next((k for k in range(at, len(items)) if is_group(items[k], "{")), None)
    words = solid(items[at:body]) if body is not None else []
    if len(words) < 6 or [word.text for word in words[1:3]] != ["let", "Err"] or not is_group(words[3], "("):
        return None
    block, name = solid(items[body].items), text_of(words[3].items).strip()
    if [word.text for word in block[:2]] != ["return", "Err"] or len(block) != 4 or text_of(block[2].items).strip() != name:
        return None
    after = next_solid(items, body)
    if words[4].text != "=" or not is_chain(words[5:]) or (after < len(items) and items[after].is_name("else")):
        return None
    equals = next(k for k in range(at, body) if items[k].is_punct("="))
    return body + 1, f"{text_of(items[equals + 1 : body]).strip()}?;"


def is_chain(words):
    """Returns whether these are a path with calls, fields and indices, to which a `?` applies as a whole."""
    return all(
        word.kind in ("name", "number", "lifetime")
        and not word.is_name("if", "match", "as")
        or word.text in (".", "::", "?", "<", ">")
        or is_group(word, "([")
        for word in words
    )


def arms_of(items, at):
    """Returns the tested expression and the arms of a `match` with two arms, each a pattern and a value."""
    if not items[at].is_name("match"):
        return None
    body = next((k for k in range(at, len(items)) if is_group(items[k], "{")), None)
    if body is None or any(item.is_punct(";") for item in items[at:body]):
        return None
    arms = [arm for arm in split_at(items[body].items, ",") if solid(arm)]
    if len(arms) != 2 or any(item.kind == "comment" for item in items[body].items):
        return None
    pairs = []
    for arm in arms:
        arrow = next((k for k, item in enumerate(arm) if item.is_punct("=>")), None)
        if arrow is None:
            return None
        value = [item for item in arm[arrow + 1 :] if not item.is_punct(",")]
        pairs.append((arm[:arrow], value))
    return body, items[at + 1 : body], pairs


def match_of_truth(items, at):
    """`match e { p => true, _ => false }` is `matches!(e, p)`, and with the two values changed `!matches!(e, p)`."""
    found = arms_of(items, at)
    if found is None:
        return None
    body, tested, ((pattern, some), (other, rest)) = found
    values = [text_of(part).strip() for part in (some, rest)]
    if text_of(other).strip() != "_" or sorted(values) != ["false", "true"]:
        return None
    sign = "" if values[0] == "true" else "!"
    return body + 1, f"{sign}matches!({text_of(tested).strip()}, {text_of(pattern).strip()})"


def match_of_option(items, at):
    """`match e { Some(x) => Some(r), None => None }` is `e.map(|x| r)`, and with `=> x` and `=> 0` it is `e.unwrap_or(0)`."""
    found = arms_of(items, at)
    if found is None:
        return None
    body, tested, ((pattern, some), (other, none)) = found
    pattern, some, none = solid(pattern), solid(some), solid(none)
    if len(pattern) != 2 or not pattern[0].is_name("Some") or text_of(other).strip() != "None" or not is_chain(solid(tested)):
        return None
    name = text_of(pattern[1].items)
    value = text_of(tested).strip()
    if len(none) == 1 and none[0].kind == "number" and text_of(some) == name:
        return body + 1, f"{value}.unwrap_or({none[0].text})"
    stays = text_of(none) == "None" and len(some) == 2 and some[0].is_name("Some")
    if stays and not any(word in text_of(some) for word in ("?", "return", "break", "continue")):
        return body + 1, f"{value}.map({closure_of(name, some[1].items)})"
    return None


def closure_of(name, items):
    """Returns a closure of one argument, or the function that it only calls."""
    words = solid(items)
    called = words and is_group(words[-1], "(") and text_of(words[-1].items).strip() == name
    if called and all(word.kind == "name" or word.text == "::" for word in words[:-1]):
        return text_of(words[:-1])
    return f"|{name}| {text_of(items)}"


def least_and_most(items, at):
    """`.max(1).min(2)` is `.clamp(1, 2)`."""
    places = [at]
    while len(places) < 6 and places[-1] < len(items):
        places.append(next_solid(items, places[-1]))
    if places[-1] >= len(items):
        return None
    words = [items[place] for place in places]
    numbers = [solid(word.items) for word in words if is_group(word, "(")]
    if [word.text for word in words[:2] + words[3:5]] != [".", "max", ".", "min"] or len(numbers) != 2:
        return None
    if any(len(number) != 1 or number[0].kind != "number" for number in numbers):
        return None
    return places[-1] + 1, f".clamp({numbers[0][0].text}, {numbers[1][0].text})"


RULES = (let_else, returned_error, match_of_truth, match_of_option, least_and_most, loop_over_indices)
