#!/usr/bin/env python3
"""Makes an ordinary Rust crate of the repository: its source without the contracts.

usage: erase.py [--counts] REPOSITORY TARGET

Reads crates.txt and crates/*/src/**/*.rt of REPOSITORY, and writes a cargo workspace to TARGET. Its
packages are those of `PACKAGES`. A crate of the repository is a module of a package, so
crates/demangle_v0/src/printer.rt becomes src/demangle_v0/printer.rs. The folder `template` next to
this file has the hand-written parts: the manifests, the public interface and tests. Its folder
`support` has the parts that take the place of the kit's library. A package has those parts that
its module `support` declares. The table of characters is crates/character_tables/stdout, which a
program of the repository prints.

A rule is about a construct of the language, and none about a function or a file of the repository.
A construct that no rule knows ends the run with its file and line. The eraser is trusted: nothing
is proved of it, and its output is only tested.
"""

import argparse
import os
import re
import shutil
import subprocess
import sys
from typing import NamedTuple

from characters import packed
from modules import (
    Module,
    Other,
    drop_ghost_imports,
    drop_unused_exports,
    erase_modules,
    feature_of,
    find_features,
    find_module_needs,
    item_lines,
    read_uses,
    read_written,
    rust_of,
)
from rattle_tokens import SourceError
from rules import COUNTS
from trees import items_of, tree_of
from unused import Usage, add_gates, gate_of, most

TEMPLATE = os.path.join(os.path.dirname(os.path.abspath(__file__)), "template")


class Package(NamedTuple):
    """A package of the workspace."""

    name: str
    # The crates that it is about. They are its modules, with all that they use.
    roots: tuple = ()
    # Crates that only its tests use.
    tests: tuple = ()
    # The package that has the crates that this one uses and does not have itself.
    below: str = ""
    # The feature of that package that it needs.
    feature: str = ""
    # Whether it has the features `std` and `stream`, without which some items are left out.
    has_features: bool = False


# The crates of tests, and test_doubles, which they use.
TESTS_OF_LIBRARY = ("test_doubles", "demangle_vectors", "call_tests", "limit_tests", "filter_tests", "format_tests", "fault_tests")
TESTS_OF_PROGRAMS = ("test_doubles", "kodliwe_tests", "filter_program_tests")

# A package comes after the one below it.
PACKAGES = (
    Package("kodliwe", ("rustc_demangle",), TESTS_OF_LIBRARY, has_features=True),
    Package("kodliwe-cli", ("kodliwe", "demangle_filter"), TESTS_OF_PROGRAMS, "kodliwe", "stream"),
    Package("rustc-demangle"),
    Package("kodliwe-capi", ("demangle_c",), below="kodliwe"),
)
# The module of a package by which the packages above it reach its other modules.
INTERNAL = "internal"
LICENCES = ("LICENSE", "LICENSE-MIT-rustc-demangle", "LICENSE-APACHE-rustc-demangle")
TABLES = ("crates", "character_tables", "stdout")
SUPPORT = os.path.join(TEMPLATE, "support")


def read_crates(repository):
    """Returns what each crate of crates.txt uses."""
    crates = {}
    with open(os.path.join(repository, "crates.txt"), encoding="utf-8") as lines:
        for line in lines:
            head, colon, uses = line.split("#")[0].partition(":")
            if colon:
                crates[head.split()[0]] = uses.split()
    return crates


def closure(crates, names):
    """Returns crates with all crates of the repository that they use, the lowest first."""
    found = []
    for name in names:
        for used in [*closure(crates, [n for n in crates[name] if n in crates]), name]:
            if used not in found:
                found.append(used)
    return found


def places_of(crates):
    """Returns by package where each crate is: the crates of the package, and of those below it."""
    places = {}
    for package in PACKAGES:
        below = places.get(package.below, {})
        head = (package.below.replace("-", "_"), INTERNAL)
        reached = {name: (*head, name) for name, path in below.items() if path[0] == "crate"}
        own = [*closure(crates, package.roots), *package.tests]
        places[package.name] = {
            **reached,
            **{name: ("crate", name) for name in own if name not in reached},
        }
        places[package.name].update({name: ("crate", name) for name in package.tests})
    return places


def read_modules(repository, package, places):
    """Reads the modules of a package."""
    for crate in sorted(name for name, path in places.items() if path[0] == "crate"):
        root = os.path.join(repository, "crates", crate, "src")
        for folder, _, files in sorted(os.walk(root)):
            for name in sorted(files):
                file = os.path.join(folder, name)
                if not name.endswith(".rt"):
                    continue
                below = os.path.relpath(file, root)[:-3].split(os.sep)
                path = (crate, *(below if below not in (["lib"], ["main"]) else ()))
                with open(file, encoding="utf-8") as source:
                    try:
                        module = Module(package.name, path, file, source.read())
                    except SourceError as error:
                        fail(repository, file, error)
                yield module


def fail(repository, file, error):
    sys.exit(f"{os.path.relpath(file, repository)}:{error.line}: {error.text}")


def read_all(repository, crates, places):
    """Reads the erased modules of each package, except those of tests of what Rust does not have."""
    found = {package.name: list(read_modules(repository, package, places[package.name])) for package in PACKAGES}
    try:
        erase_modules([module for modules in found.values() for module in modules])
    except SourceError as error:
        fail(repository, error.file, error)
    for name, modules in found.items():
        for module in modules:
            try:
                read_uses(module, places[name], set(crates[module.crate]) - set(crates))
            except SourceError as error:
                fail(repository, module.file, error)
            if module.lacking:
                print(f"left out: {os.path.relpath(module.file, repository)}: {module.lacking}")
        found[name] = [module for module in modules if module.lacking is None]
    return found


def without_empty(modules):
    """Returns the modules that have items, exports or modules with such."""
    kept = [module for module in modules if has_items(module)]
    paths = {module.path[:length] for module in kept for length in range(len(module.path) + 1)}
    return [module for module in modules if module.path in paths]


def has_items(module):
    if any(visibility and leaves for _, visibility, leaves in module.uses):
        return True
    return any(item.word not in ("use", "mod", "") or item.body() is not None for item in items_of(tree_of(module.tokens)))


def written_of(package):
    """Reads the hand-written modules of a package."""
    root = os.path.join(TEMPLATE, package.name, "src")
    features = {}
    for head in ("lib.rs", os.path.join("support", "mod.rs")):
        if os.path.exists(os.path.join(root, head)):
            with open(os.path.join(root, head), encoding="utf-8") as file:
                declared = re.findall(r"#\[cfg\((.*)\)\]\n(?:#.*\n)*(?:pub )?mod (\w+);", file.read())
            for condition, name in declared:
                feature = re.search(r'feature = "(\w+)"', condition)
                features[os.path.join(os.path.dirname(head), name)] = "test" if "test" in condition else feature[1]
    for folder, _, names in sorted(os.walk(root)):
        for name in sorted(names):
            place = os.path.join(folder, name)
            below = os.path.relpath(place, root)[:-3]
            with open(place, encoding="utf-8") as file:
                yield read_written(file.read(), features.get(below, ""))


def trim(package, modules, above):
    """Drops from a package's modules what nothing uses, and returns what paths need.

    `above` are the modules of the packages above it.
    """
    others = [*written_of(package), *above]
    for module in modules if not package.has_features else []:
        module.needs = ""
    find_features(modules, package.tests)
    exports = drop_unused_exports(modules, others)
    gated = find_features(modules, package.tests)
    usage = Usage(modules, others)
    usage.find_dead()
    usage.find_needs()
    find_module_needs(usage, exports)
    gated = find_features(modules, package.tests)
    for place, needs in exports.items():
        module = next(m for m in modules if m.root() == place[:-1])
        module.export_needs[place[-1]] = needs
        if needs != module.feature:
            gated[place] = most(gated.get(place, ""), needs)
    for named in usage.items:
        if named.needs and not named.module.feature.startswith("test"):
            gated[(*named.module.root(), named.name)] = most(named.needs, named.module.feature)
    for module, names in usage.drop_dead().items():
        module.ghost_names |= names
        for name in {leaf[-1] for _, _, leaves in module.uses for leaf in leaves}:
            module.import_needs[name] = usage.needs_of_name(module, name) or ""
        drop_ghost_imports(module)
    add_gates(usage)
    return gated


def put(file, text):
    os.makedirs(os.path.dirname(file), exist_ok=True)
    with open(file, "w", encoding="utf-8") as out:
        out.write(text)


def fill(file, mark, text):
    """Replaces a mark in a file of the template."""
    with open(file, encoding="utf-8") as source:
        old = source.read()
    if mark in old:
        put(file, old.replace(mark, text))


def write_modules(repository, modules, gated, source):
    """Writes the erased modules into a package's folder `src`.

    A file of the template takes the place of the module of its path.
    """
    written = {m.path for m in modules}
    for module in modules:
        place = os.path.relpath(module.file, repository)
        note = f"// Made from {place} by packaging/crate/erase.py: edit that file instead.\n"
        below = list(module.path[1:]) or ["mod"]
        file = os.path.join(source, module.crate, *below) + ".rs"
        if not os.path.exists(file):
            put(file, note + rust_of(module, gated, written))


def declarations(package, modules, gated):
    """Returns the `mod` items of a package's modules."""
    lines = []
    for module in sorted((m for m in modules if len(m.path) == 1), key=lambda m: m.path):
        feature = feature_of(module.root(), gated)
        gate = gate_of(feature)
        if module.crate in package.tests:
            gate = f'#[cfg(all(test, feature = "{feature}"))]\n' if feature else gate_of("test")
        lines.append(f"{gate}mod {module.crate};\n")
    return "".join(lines)


def write_package(repository, target, package, modules, above, gated):
    """Writes a package. `above` has the paths by which the packages above reach its items."""
    folder = os.path.join(target, package.name)
    source = os.path.join(folder, "src")
    write_modules(repository, modules, gated, source)
    fill(os.path.join(source, "lib.rs"), "// MODULES\n", declarations(package, modules, gated))
    internal = os.path.join(source, INTERNAL + ".rs")
    if os.path.exists(internal):
        fill(internal, "// ITEMS\n", item_lines(above, gated))
    if os.path.isdir(os.path.join(source, "support")):
        write_support(repository, os.path.join(source, "support"))
    for name in LICENCES:
        shutil.copy(os.path.join(repository, name), folder)


def write_support(repository, folder):
    """Writes the parts in place of the kit's library that a package's module `support` declares."""
    with open(os.path.join(folder, "mod.rs"), encoding="utf-8") as file:
        declared = re.findall(r"(?m)^ *(?:pub )?mod (\w+);", file.read())
    for name in declared:
        if os.path.isdir(os.path.join(SUPPORT, name)):
            shutil.copytree(os.path.join(SUPPORT, name), os.path.join(folder, name))
        elif not os.path.exists(os.path.join(folder, name + ".rs")):
            shutil.copy(os.path.join(SUPPORT, name + ".rs"), folder)
    if "unicode" in declared:
        with open(os.path.join(repository, *TABLES), encoding="utf-8") as file:
            put(os.path.join(folder, "unicode", "tables.rs"), packed(file.read()))


def lay_out(target):
    """Formats all files by `cargo fmt`."""
    for package in PACKAGES:
        words = ["cargo", "fmt", "--manifest-path", os.path.join(target, package.name, "Cargo.toml")]
        if subprocess.run(words, check=False).returncode != 0:
            sys.exit("erase.py: `cargo fmt` failed")


def clear(target):
    """Removes what an earlier run wrote, but not what cargo built."""
    for name in os.listdir(target) if os.path.isdir(target) else []:
        place = os.path.join(target, name)
        if os.path.isdir(place) and name != "target":
            shutil.rmtree(place)
        elif not os.path.isdir(place):
            os.remove(place)


def main():
    parser = argparse.ArgumentParser(usage=__doc__.split("\n")[2][len("usage: ") :])
    parser.add_argument("--counts", action="store_true")
    parser.add_argument("repository")
    parser.add_argument("target")
    options = parser.parse_args()
    if shutil.which("cargo") is None:
        sys.exit("erase.py: there is no cargo, which lays the files out")
    if not os.path.exists(os.path.join(options.repository, *TABLES)):
        sys.exit(f"erase.py: there is no {os.path.join(*TABLES)} in {options.repository}")
    repository, target = os.path.abspath(options.repository), os.path.abspath(options.target)
    crates = read_crates(repository)
    places = places_of(crates)
    modules = read_all(repository, crates, places)
    clear(target)
    shutil.copytree(TEMPLATE, target, ignore=lambda place, _: ["support"] if place == TEMPLATE else [], dirs_exist_ok=True)
    above = []
    for package in reversed(PACKAGES):
        own = modules[package.name]
        gated = trim(package, own, above)
        own = without_empty(own)
        head = (package.name.replace("-", "_"), INTERNAL)
        reached = {path[2:] for other in above for path in other.paths if path[:2] == head}
        write_package(repository, target, package, own, reached, gated)
        above += [Other(m.tokens, m.paths(), package.feature, m.uses, is_above=True) for m in own]
    lay_out(target)
    if options.counts:
        print("\n".join(f"{count:6} {rule}" for rule, count in COUNTS.most_common()))


if __name__ == "__main__":
    main()
