"""Lets the types of shared references, numbers and such types derive `Clone` and `Copy`.

In Rattle a type derives them only if something copies it.
"""

from rattle_tokens import tokens_of
from trees import all_items, is_group, solid, split_at, tree_of

PLAIN = {"bool", "char", "str", "u8", "u16", "u32", "u64", "u128", "usize", "i8", "i16", "i32", "i64", "i128", "isize"}


def field_types(item):
    """Returns the types of the fields of a struct or an enum, each as its items."""
    body = item.body()
    groups = [group for group in item.head() if is_group(group, "(")]
    if item.word == "struct":
        groups += [body] if body is not None else []
    else:
        groups = [group for group in body.items if is_group(group, "({")]
    for group in groups:
        for part in split_at(group.items, ",", angles=True):
            words = [word for word in solid(part) if word.text != ","]
            colon = next((at for at, word in enumerate(words) if word.is_punct(":")), -1)
            if words:
                yield [word for word in words[colon + 1 :] if not word.is_name("pub")]


def may_be_copied(words, names):
    """Returns whether a field of this type may be copied, if the named types may."""
    if words[0].is_punct("&"):
        return not any(word.is_name("mut", "dyn") for word in words)
    for at, word in enumerate(words):
        is_prefix = at + 1 < len(words) and words[at + 1].text == "::"
        if word.kind == "name" and not is_prefix and word.text not in PLAIN and word.text not in names and word.text != "Option":
            return False
        if word.kind not in ("name", "lifetime") and word.text not in ("<", ">", "::", "'_"):
            return False
    return True


def derived(item):
    """Returns the group of the traits that a type derives, or None."""
    for other in item.items[item.start : item.keyword]:
        if is_group(other, "[") and solid(other.items)[0].is_name("derive"):
            return solid(other.items)[1]
    return None


def has_only_lifetimes(item):
    """Returns whether a type has no parameters but lifetimes."""
    words = [word for word in solid(item.head())[2:] if not is_group(word, "(")]
    return all(word.kind == "lifetime" or word.text in ("<", ">", ",", ";") for word in words)


def derive_copies(trees):
    """Lets each type that may be copied derive `Clone` and `Copy`."""
    types = [item for tree in trees for item in all_items(tree) if item.word in ("struct", "enum")]
    kept = {item.name for item in types}
    done = {id(item) for item in types if derives(item, "Copy")}
    while True:
        # Types of one name are taken or left together.
        lost = {
            item.name
            for item in types
            if item.name in kept and id(item) not in done
            if not (has_only_lifetimes(item) and all(may_be_copied(words, kept) for words in field_types(item)))
        }
        if not lost:
            break
        kept -= lost
    for tree in trees:
        for item in reversed(list(all_items(tree))):
            if item.word in ("struct", "enum") and item.name in kept and not derives(item, "Clone"):
                add(item)


def derives(item, name):
    return derived(item) is not None and any(word.is_name(name) for word in derived(item).items)


def add(item):
    group = derived(item)
    if group is not None:
        group.items[:0] = tree_of(tokens_of("Clone, Copy, ", group.line))
        return
    at = item.start
    while item.items[at].is_blank():
        at += 1
    item.items[at:at] = tree_of(tokens_of("#[derive(Clone, Copy)]\n", item.items[at].line))
