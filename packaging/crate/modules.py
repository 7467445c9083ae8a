"""Modules of the source as modules of the package: their paths, imports and what needs `std`."""

import re

import ghosts
import unused
from copies import derive_copies
from rattle_tokens import SourceError, Token, after, end_of, leaves_of, text_at, tokens_of
from rules import erase, make_runtimes, refuse_left_overs
from tidy import tidy_module
from trees import flat, items_of, names_in, tree_of
from unused import FEATURES, gate_of, least, most
from words import drop_ghost_words

# Modules of Rust's `std` that are in `core` too.
CORE = {"cell", "convert", "default", "fmt", "marker", "mem", "num", "ops", "slice", "str"}
# Paths below `std` that the package's module `support` has in Rattle's form.
SUPPORT_STD = {
    ("alloc",), ("env",), ("fs",), ("os",), ("rt",), ("test",),
    ("io", "BufReader"), ("io", "BufWriter"), ("io", "IsTerminal"), ("io", "Stdin"), ("process", "Abort"),
}  # fmt: skip
# Crates of the kit that `support` has.
SUPPORT_CRATES = {"arrayvec", "itoa", "memchr", "unicode"}
# The feature that a module needs if it imports from one of these. `stream` includes `std`.
NEEDS = {
    **dict.fromkeys(("env", "fs", "io", "os", "process"), "std"),
    **dict.fromkeys(("alloc", "rt", "string", "test", "vec"), "stream"),
}
# Names of Rattle's prelude that Rust's does not have or has otherwise, and their place in `support`.
PRELUDE = {
    "Vec": "vec::Vec",
    "String": "string::String",
    "AllocGlobal": "rt::AllocGlobal",
    "HostRuntime": "rt::HostRuntime",
    "format!": "format",
    "vec!": "vec_in as vec",
    "repeat_in": "texts::RepeatIn",
    "collect_in": "vec::CollectIn",
    "to_vec_in": "vec::ToVecIn",
}


class Module:
    """One source file: its crate, its module path (the crate first) and its erased tokens."""

    is_above = False

    def __init__(self, package, path, file, text):
        self.package, self.crate, self.path, self.file = package, path[0] if path else "", path, file
        # The names in what was dropped, and those of ghost members.
        self.ghost_names, self.members = set(), set()
        self.tokens = erase(text, self.ghost_names, self.members)
        self.head = []
        self.children = set(re.findall(r"(?m)^(?:pub(?:\(\w+\))? )?mod (\w+);", text))
        # Whether laws or ghost types were dropped.
        self.had_laws = False
        # What the file imports: a token in its place in `tokens`, visibility and paths.
        self.uses = []
        # The feature that it needs, and that of the modules that it is in too.
        self.needs = self.feature = ""
        # What the uses of an imported name need, if it is more.
        self.import_needs, self.export_needs = {}, {}
        # Why the module cannot be erased, if it cannot.
        self.lacking = None

    def root(self):
        return ("crate", *self.path)

    def paths(self):
        """Returns all paths that it names, those of its imports too."""
        found = {leaf for _, _, leaves in self.uses for leaf in leaves}
        previous = ""
        for at, token in enumerate(self.tokens):
            if token.kind == "name" and previous not in ("::", "."):
                path = tuple(path_at(self.tokens, at))
                if len(path) > 1:
                    found.add(path)
            previous = previous if token.is_blank() else token.text
        return found

    def names(self):
        """Returns the names in the tokens; a macro's has `!` after it."""
        found = set()
        for at, token in enumerate(self.tokens):
            if token.kind == "name":
                found.add(token.text + "!" if text_at(self.tokens, after(self.tokens, at)) == "!" else token.text)
        return found

    def is_test(self):
        return "tests" in self.path

    def need(self, feature):
        self.needs = most(self.needs, feature)

    def absolute(self, path, places):
        """Returns a path of the source as a path of the package."""
        first, rest = path[0], path[1:]
        if first == "crate":
            return ("crate", self.crate, *rest)
        if first == "std":
            if rest in SUPPORT_STD or rest[:1] in SUPPORT_STD or rest[:2] in SUPPORT_STD:
                return ("crate", "support", *rest)
            return ("core" if rest[0] in CORE else "std", *rest)
        if first in SUPPORT_CRATES:
            return ("crate", "support", *path)
        if first in places:
            return (*places[first], *rest)
        return path

    def from_root(self, path):
        """Returns a path of the package from its root, to look up what needs `std`."""
        if path[0] in self.children:
            return ("crate", *self.path, *path)
        if path[0] == "self":
            return ("crate", *self.path, *path[1:])
        if path[0] == "super":
            return ("crate", *self.path[:-1], *path[1:])
        return path


class Other:
    """A module that is not erased here: a hand-written one, or one of a package above."""

    def __init__(self, tokens, paths, feature, uses=(), is_above=False):
        self.tokens, self.paths, self.feature, self.uses, self.is_above = tokens, paths, feature, uses, is_above


def read_written(text, feature):
    """Reads a hand-written file."""
    tokens = tokens_of(text)
    module = Module("", (), "", "")
    module.tokens = tokens
    paths = {path for path in module.paths() if path[0] != "use"}
    for at, token in enumerate(tokens):
        if token.is_name("use"):
            end = end_of(tokens, at, ";")
            paths |= set(leaves_of([other for other in tokens[at + 1 : end] if not other.is_blank()]))
    return Other(tokens, paths, feature)


def split_head(tokens):
    """Splits a file's own comments from what follows them."""
    at = 0
    while at < len(tokens) and (tokens[at].kind == "space" or tokens[at].text.startswith("//!")):
        at += 1
    return tokens[:at], tokens[at:]


def drop_ghost_values(modules):
    """Drops what serves the proof alone from all modules of the workspace: values, laws and parameters."""
    fields = {name for module in modules for name in ghosts.fields_of(tree_of(module.tokens))}
    renamed = {}
    for module in modules:
        tree = tree_of(module.tokens)
        before = names_in(tree)
        dropper = ghosts.Dropper(fields)
        try:
            dropper.drop(tree)
        except SourceError as error:
            error.file = module.file
            raise
        module.had_laws = ghosts.drop_laws(tree) > 0
        unused.drop_labels(tree)
        unused.drop_unread(tree)
        renamed.update(dropper.renamed)
        module.tokens = list(flat(tree))
        module.ghost_names |= before - names_in(tree)
    for module in modules:
        ghosts.rename(module.tokens, renamed)


def drop_unread_parameters(modules):
    """Drops the parameters that a crate's private functions do not name, until there is none."""
    trees = {module.path: tree_of(module.tokens) for module in modules}
    before = {path: names_in(tree) for path, tree in trees.items()}
    while unused.drop_unread_parameters(trees):
        pass
    for module in modules:
        tree = trees[module.path]
        module.tokens = list(flat(tree))
        module.ghost_names |= before[module.path] - names_in(tree)


def finish(module):
    """Rewrites what is left of a module as Rust writes it."""
    tree = tree_of(make_runtimes(module.tokens))
    tidy_module(tree)
    module.head, module.tokens = split_head(drop_ghost_words(list(flat(tree)), module.members))


def erase_modules(modules):
    """Erases the modules of the workspace. Each has its own tokens, without clauses."""
    drop_ghost_values(modules)
    others = [module for module in modules if not module.is_test()]
    trees = [tree_of(module.tokens) for module in others]
    derive_copies(trees)
    for module, tree in zip(others, trees):
        module.tokens = list(flat(tree))
    for crate in sorted({(module.package, module.crate) for module in modules}):
        drop_unread_parameters([m for m in modules if (m.package, m.crate) == crate])
    for module in modules:
        finish(module)


def read_uses(module, places, kit_crates):
    """Takes the `use` items out of a module's tokens, and rewrites all other paths."""
    tokens, out, at, previous = module.tokens, [], 0, ""
    while at < len(tokens):
        token, next_text = tokens[at], text_at(tokens, after(tokens, at))
        if token.is_name("use") and previous in ("", ";", "}", "pub", ")", "]"):
            end = end_of(tokens, at, ";")
            read_use(module, tokens[at + 1 : end], out, places, kit_crates)
            previous, at = ";", end + 1
            continue
        if token.kind == "name" and next_text == "::" and previous not in ("::", ".") and token.text != "std":
            path = module.absolute((token.text,), places)
            token = Token("name", "::".join(path), token.line)
        if not token.is_blank():
            previous = token.text
        out.append(token)
        at += 1
    # A path that was put in the place of a name is several tokens.
    module.tokens = [
        part for token in out for part in (tokens_of(token.text, token.line) if "::" in token.text and token.kind == "name" else [token])
    ]
    refuse_left_overs(module.tokens)
    for name in sorted(set(PRELUDE) & module.names()):
        module.uses.append((None, "", [("crate", "support", *PRELUDE[name].split("::"))]))
        module.need("stream")
    drop_ghost_imports(module)


def path_at(tokens, at):
    """Returns the names of the path that begins at an index."""
    names = [tokens[at].text]
    at = after(tokens, at)
    while text_at(tokens, at) == "::" and tokens[after(tokens, at)].kind == "name":
        at = after(tokens, at)
        names.append(tokens[at].text)
        at = after(tokens, at)
    return names


def read_use(module, tokens, out, places, kit_crates):
    """Reads one `use` item, and leaves a token in its place."""
    tree = [token for token in tokens if not token.is_blank()]
    leaves = []
    for leaf in leaves_of(tree):
        if leaf[0] in kit_crates and leaf[0] not in SUPPORT_CRATES:
            module.lacking = f"the kit's crate `{leaf[0]}` has no form in `support`"
            if not module.is_test():
                raise SourceError(tree[0].line, module.lacking)
        if leaf[-1] != "Model" and leaf[-1] not in ghosts.GHOST_TYPES:
            leaves.append(module.absolute(leaf, places))
    for leaf in leaves:
        for name in leaf[:3]:
            module.need(NEEDS.get(name, ""))
    visibility = take_visibility(out)
    out.append(Token("use", "", tree[0].line))
    module.uses.append((out[-1], visibility, leaves))


def take_visibility(out):
    """Removes `pub` or `pub(..)` from the end of the output, and returns it."""
    at = len(out) - 1
    while at >= 0 and out[at].is_blank():
        at -= 1
    if at >= 0 and out[at].text == ")":
        while out[at].text != "(":
            at -= 1
        at -= 1
    if at < 0 or out[at].text != "pub":
        return ""
    text = "".join(token.text for token in out[at:]).strip()
    del out[at:]
    return text + " "


def drop_ghost_imports(module):
    """Drops private imports of names that only the erased text uses."""
    ghost_names = module.ghost_names - {name.rstrip("!") for name in module.names()}
    for at, (place, visibility, leaves) in enumerate(module.uses):
        if not visibility:
            kept = [leaf for leaf in leaves if leaf[-1].split(" as ")[-1] not in ghost_names]
            module.uses[at] = (place, visibility, kept)


def feature_of(path, gated):
    """Returns the feature that a path needs, or an empty text."""
    return most(*(gated.get(path[:length], "") for length in range(len(path) + 1)))


def find_gated(modules):
    """Returns the features that modules need, and those of what is exported from them."""
    gated = {module.root(): module.needs for module in modules if module.needs}
    while True:
        more = dict(gated)
        for module in modules:
            for _, visibility, leaves in module.uses:
                for leaf in leaves if visibility else []:
                    feature = feature_of(module.from_root(leaf), gated)
                    if feature:
                        more[(*module.root(), leaf[-1].split(" as ")[-1])] = feature
        if more == gated:
            return gated
        gated = more


def find_features(modules, package_tests):
    """Finds what each module needs with all that it is in, and returns what paths need."""
    gated = find_gated(modules)
    for crate in package_tests:
        gated["crate", crate] = most(*(module.needs for module in modules if module.crate == crate))
    for module in modules:
        module.feature = feature_of(module.root(), gated)
        if module.is_test() or module.crate in package_tests:
            module.feature = "test stream" if module.feature == "stream" else "test"
    return gated


def find_module_needs(usage, exports):
    """Finds the modules all of whose items need a feature. The modules below come first.

    `exports` has what the exports need.
    """
    needs = {(named.module, id(named.item.items), named.name): most(named.needs, named.module.feature) for named in usage.items}
    by_path = {module.path: module for module in usage.trees}
    for module, tree in sorted(usage.trees.items(), key=lambda pair: -len(pair[0].path)):
        found = []
        for item in items_of(tree):
            if item.word in ("use", "") or item.name in ("_", "") and item.word != "impl":
                continue
            name = unused.impl_of(item) or item.name
            key = (module, id(tree), name)
            if item.word == "mod" and item.body() is None:
                child = by_path.get((*module.path, name))
                found += [most(child.needs, child.feature)] if child else []
            elif key in needs:
                found.append(needs[key])
            elif item.word != "impl":
                found.append(module.feature)
        found += [exports[place] for place in exports if place[:-1] == module.root()]
        if found and not module.feature.startswith("test"):
            module.need(least(found))


def drop_unused_exports(modules, others):
    """Drops the exports of names that no other module names by them, and returns what the rest need."""
    written = {path[-2:] for other in others if not other.is_above for path in other.paths}
    above = {("crate", *path[2:]): other.feature for other in others if other.is_above for path in other.paths}
    exported = {}
    for module in modules:
        for _, visibility, leaves in module.uses:
            for leaf in leaves if visibility else []:
                exported[(*module.root(), leaf[-1].split(" as ")[-1])] = (module, leaf)
    needs = {}
    while True:
        named = named_paths(modules, exported, needs)
        found = {}
        for place, (module, _) in exported.items():
            inside = place[-1] in {name.rstrip("!") for name in module.names()}
            uses = [
                *named.get(place, ()),
                *([above[place]] if place in above else ()),
                *([""] if place[-2:] in written else ()),
                *([module.feature] if inside else ()),
            ]
            if uses:
                found[place] = most(least(uses), module.feature)
        if found == needs and len(found) == len(exported):
            return needs
        for place in set(exported) - set(found):
            module, leaf = exported.pop(place)
            module.uses = [
                (at, visibility, [x for x in leaves if not (visibility and x == leaf)]) for at, visibility, leaves in module.uses
            ]
        needs = found


def named_paths(modules, exported, needs):
    """Returns all paths that modules name, and what those modules need."""
    named = {}
    for module in modules:
        aliases = {leaf[-1].split(" as ")[-1]: module.from_root(leaf) for _, _, leaves in module.uses for leaf in leaves}
        for path in module.paths():
            full = module.from_root(path)
            if path[0] in aliases and len(path) > 1:
                full = (*aliases[path[0]], *path[1:])
            place = (*module.root(), path[-1].split(" as ")[-1])
            is_export = exported.get(place, (None, None))[1] == path
            feature = needs.get(place, module.feature) if is_export else module.feature
            for length in range(2, len(full) + 1):
                named.setdefault(tuple(name.split(" as ")[0] for name in full[:length]), []).append(feature)
    return named


def rust_of(module, gated, written):
    """Returns the file's Rust text, not yet formatted."""
    held = feature_of(module.root(), gated)
    # What the module as a whole needs, its parts do not need to say.
    gated = {place: feature for place, feature in gated.items() if FEATURES.index(feature) > FEATURES.index(held)}
    lines = use_lines(module, gated, held)
    text = "".join(t.text for t in module.head) + "".join(sorted(set(lines.get(None, []))))
    text += "".join("".join(lines.get(id(token), []))[:-1] if token.kind == "use" else token.text for token in module.tokens)
    for child in module.children:
        declared = r"((?:pub(?:\(\w+\))? )?mod %s;)" % child
        place = (*module.root(), child)
        if place in gated:
            text = re.sub("(?m)^" + declared, lambda found, gate=gate_of(gated[place]): gate + found[1], text)
        if place[1:] not in written:
            text = re.sub(r"(?m)^(#\[cfg\(test\)\]\s*)?" + declared + "\n", "", text)
    return text


def use_lines(module, gated, held):
    """Returns the module's `use` items by their tokens. `held` is what the module needs as a whole."""
    lines = {}
    for place, visibility, leaves in module.uses:
        groups = {}
        for leaf in leaves:
            needs = module.export_needs if visibility else module.import_needs
            needed = most(feature_of(module.from_root(leaf), gated), needs.get(leaf[-1].split(" as ")[-1], ""))
            gate = gate_of(needed if FEATURES.index(needed) > FEATURES.index(most(held, module.feature)) else "")
            groups.setdefault((gate, leaf[:-1]), set()).add(leaf[-1])
        for (gate, prefix), names in sorted(groups.items()):
            lines.setdefault(place and id(place), []).append(gate + use_line(visibility, prefix, names))
    return lines


def use_line(visibility, prefix, names):
    """Returns a `use` item of names with one prefix."""
    inner = ", ".join(sorted(names))
    last = "{" + inner + "}" if len(names) > 1 else inner
    return f"{visibility}use {'::'.join((*prefix, last))};\n"


def item_lines(paths, gated):
    """Returns the modules by which other packages reach these items."""
    by = {}
    for path in paths:
        name = path[-1].split(" as ")[0]
        gate = gate_of(feature_of(("crate", *path[:-1], name), gated))
        by.setdefault(path[0], {}).setdefault((gate, path[1:-1]), set()).add(name)
    lines = []
    for crate, groups in sorted(by.items()):
        lines.append(f"/// Items of the crate `{crate}` of the source.\npub mod {crate} {{\n")
        for (gate, between), names in sorted(groups.items()):
            inner = gate + use_line("pub ", ("crate", crate, *between), names)
            for name in reversed(between):
                inner = f"/// Items of its module `{name}`.\npub mod {name} {{\n{inner}}}\n"
            lines.append(inner)
        lines.append("}\n\n")
    return "".join(lines)
