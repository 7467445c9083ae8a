#!/usr/bin/env python3
"""Lists the files of definitions that a reader of the public contracts of the library and the program has to believe.

It follows the names that the clauses of public items have from the crates' specs/, and then the imports among those files.
It prints each crate's files with their lines. It also prints the files that docs/GUARANTEES.md lacks or lists without need,
and then its status is 1. Run it at the top of the repository: tests/believed.py
"""
import argparse, os, re, sys

ROOT = os.path.dirname(os.path.dirname(os.path.abspath(__file__)))
CRATES = os.path.join(ROOT, "crates")
# The crates that others call: the library and its laws, the calls for C and for pages over it, and what the program does.
CALLED = {
    "rustc_demangle": ["lib"],
    "demangle_laws": ["lib"],
    "demangle_c": ["lib"],
    "demangle_web": ["lib"],
    "kodliwe_program": ["lib"],
}
PAGE = os.path.join(ROOT, "docs", "GUARANTEES.md")
SPEC = re.compile(r"Rattle\.(\w+)\.specs\.(\w+)")
ITEM = re.compile(
    r'^(?:pub )?(?:extern "C" )?(?:fn|struct|enum|trait|impl|const)\b.*?'
    r"(?=^(?:pub |//|#\[|fn|struct|enum|trait|impl|const|use|ghost|mod)|\Z)",
    re.M | re.S,
)


def read(*place):
    with open(os.path.join(*place), encoding="utf-8") as file:
        return file.read()


def used_crates():
    """The crates that are called, and those of this repository below them."""
    lines = dict(line.split(":", 1) for line in read(ROOT, "crates.txt").splitlines() if ":" in line)
    uses = {head.split()[0]: names.split() for head, names in lines.items()}
    found = [name for name in CALLED if name in uses]
    for name in found:
        found += [used for used in uses[name] if used in uses and used not in found]
    return found


def home(crate, name):
    """The crate that has the file of definitions. The named crate may only export it."""
    passed = re.findall(r"^pub use Rattle\.(\w+)\.specs\.%s$" % name, read(CRATES, crate, "specs", "Lib.antt"), re.M)
    return (passed[0] if passed else crate, name)


def used(text):
    """What a module brings in by `pub use`: each name, and the path to it."""
    for path, many, one in re.findall(r"^\s*pub use ([\w:]*?)(?:\{([^}]*)\}|(\w+));", text, re.M):
        for part in filter(str.strip, (many or one).split(",")):
            yield part.split("::")[-1].strip(), [step for step in (path + part.strip()).split("::") if step]


def owned(text):
    return set(re.findall(r'^\s*pub (?:extern "C" )?(?:fn|struct|enum|trait) (\w+)', text, re.M))


def folder_of(folder, module):
    """The folder of the modules inside a module."""
    return folder if module == "lib" else os.path.join(folder, module)


def place_of(folder, module, path):
    """The file that has the item of this path, seen from a module, and its name."""
    inner = folder_of(folder, module)
    for step, name in enumerate(path[:-1]):
        if os.path.exists(os.path.join(CRATES, name, "src", "lib.rt")):
            inner, folder, module = os.path.join(CRATES, name, "src"), os.path.join(CRATES, name, "src"), "lib"
        else:
            folder, module, inner = inner, name, os.path.join(inner, name)
    text = read(folder, module + ".rt")
    if path[-1] in owned(text):
        return os.path.join(folder, module + ".rt"), path[-1]
    further = dict(used(text))[path[-1]]
    return place_of(folder, module, further)


def exported(folder, module):
    """The files and names of the items that a module makes public, and its public modules."""
    text = read(folder, module + ".rt")
    places = {(os.path.join(folder, module + ".rt"), name) for name in owned(text)}
    places |= {place_of(folder, module, path) for _, path in used(text)}
    for name in re.findall(r"^\s*pub mod (\w+);", text, re.M):
        places |= exported(folder_of(folder, module), name)
    return places


def clauses(text):
    """The lines of a function, from its name to its body."""
    return re.split(r"^\s*\{(?:\}|\s*$)", text, maxsplit=1, flags=re.M)[0]


def promised(text, names):
    """What the public items of a file promise, by these names."""
    for item in ITEM.findall(text):
        head = item.split("{")[0]
        subject = re.search(r"(\w+)(?:<[^{]*>)?\s*(?:where[^{]*)?$", head.strip())
        if item.startswith("impl"):
            if not subject or not re.search(r"\b(?:%s)\b" % "|".join(names), head.split(" for ")[-1]):
                continue
            yield "\n".join(re.findall(r"^\s*ghost (?!use|invariant)[^;]*;", item, re.M))
            public = "" if " for " in head else "pub "
            for function in re.findall(r"^    %sfn .*?(?=^    (?:pub|fn|///|//|\})|\Z)" % public, item, re.M | re.S):
                yield clauses(function)
        elif item.startswith("pub ") and re.match(r'pub (?:extern "C" )?(?:fn|struct|enum|trait|const) (\w+)', item).group(1) in names:
            yield item if item.startswith("pub trait") else clauses(item)


def cited(file, names):
    """The files of definitions whose names the public items of a file use."""
    text = read(file)
    words = {}
    for owner, module, list_of in re.findall(r"ghost use Rattle\.(\w+)\.specs\.(\w+)\.\{([^}]*)\}", text):
        words.update((word.strip(), (owner, module)) for word in list_of.split(","))
    found = set()
    for clause in promised(text, names):
        found |= {place for word, place in words.items() if re.search(r"(?<![\w.])%s(?!\w)" % re.escape(word), clause)}
    return found


def with_impls(crates, places):
    """The files of these items, and those that have impls for them, each with its items' names."""
    files = {file: {name for other, name in places if other == file} for file, _ in places}
    for crate in crates:
        for folder, _, names in os.walk(os.path.join(CRATES, crate, "src")):
            for name in names:
                file = os.path.join(folder, name)
                # A file's own item of the same name is another one.
                meant = {item for _, item in places} - (owned(read(file)) - files.get(file, set()))
                if re.search(r"^impl(?:<[^>]*>)? (?:.* for )?(?:%s)\b" % "|".join(meant), read(file), re.M):
                    files[file] = meant
    return files


def main():
    argparse.ArgumentParser(description=__doc__, formatter_class=argparse.RawDescriptionHelpFormatter).parse_args()
    crates = used_crates()
    places = {
        place
        for name in CALLED
        if name in crates
        for module in CALLED[name]
        for place in exported(os.path.join(CRATES, name, "src"), module)
    }
    files = with_impls(crates, places)
    believed = set()
    todo = {home(*place) for file in files for place in cited(file, files[file]) if place[0] in crates}
    while todo:
        believed |= todo
        reached = {tuple(place) for crate, name in todo for place in SPEC.findall(read(CRATES, crate, "specs", name + ".antt"))}
        todo = {home(*place) for place in reached if place[0] in crates and place[1] != "declared"} - believed
    lines = {place: read(CRATES, place[0], "specs", place[1] + ".antt").count("\n") for place in believed}
    for crate in reversed(crates):
        print(crate + ": " + ", ".join("%s %d" % (name, lines[crate, name]) for owner, name in sorted(believed) if owner == crate))
    print("%d files of %d lines" % (len(believed), sum(lines.values())))
    listed = set(re.findall(r"`(\w+)\.antt`", read(PAGE)))
    wanted = {name for _, name in believed}
    for name in sorted(wanted - listed):
        print("not in docs/GUARANTEES.md: " + name)
    for name in sorted(listed - wanted):
        print("in docs/GUARANTEES.md, and cited by no public contract: " + name)
    return 0 if wanted == listed else 1


if __name__ == "__main__":
    sys.exit(main())
