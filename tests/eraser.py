#!/usr/bin/env python3
"""Tests packaging/crate/erase.py: each construct separately, and mistakes that are planted in it.

usage: eraser.py [STEP..]

  constructs   each construct of tests/eraser/constructs.txt becomes the text that follows it there
  unknown      each construct of tests/eraser/unknown.txt is an error that names its line
  source       an error in a repository names the file and the line
  faults       the tests of the crate find mistakes that are planted in the eraser and the template

It needs cargo.
"""

import os
import re
import shutil
import subprocess
import sys

import rust_common as common
from common import ROOT
from rust_common import OUT, check

HERE = os.path.dirname(os.path.abspath(__file__))
sys.path.insert(0, os.path.join(HERE, "..", "packaging", "crate"))
import modules  # noqa: E402
import rattle_tokens  # noqa: E402
import rules  # noqa: E402

FAULTY = os.path.join(OUT, "faulty")
TARGET = os.path.join(OUT, "faulty-target")


def cases(name):
    """Returns a file's cases: a title and its parts. `== TITLE` begins one, and `--` a part."""
    with open(os.path.join(HERE, "eraser", name), encoding="utf-8") as file:
        text = file.read()
    found = re.split(r"(?m)^== (.*)\n", text)[1:]
    for title, body in zip(found[::2], found[1::2]):
        yield title, [part.strip("\n") for part in re.split(r"(?m)^--\n", body)]


def erased(text):
    """Returns the erased text, with each run of spaces as one space."""
    module = modules.Module("package", ("krate",), "krate.rt", text)
    modules.erase_modules([module])
    tokens = [*module.head, *module.tokens]
    rules.refuse_left_overs(tokens)
    return re.sub(r"\s+", " ", "".join(token.text for token in tokens)).strip()


def check_constructs():
    count = 0
    for title, (source, wanted) in cases("constructs.txt"):
        try:
            found = erased(source)
        except rattle_tokens.SourceError as error:
            raise AssertionError(f"{title}: {error.line}: {error.text}") from error
        wanted = re.sub(r"\s+", " ", wanted)
        check(found == wanted, f"{title}:\n{found}\nand not\n{wanted}")
        count += 1
    check(count > 45, f"{count} constructs")
    return f"{count} constructs become what they are to become"


def check_unknown():
    count = 0
    for title, (source, line) in cases("unknown.txt"):
        try:
            found = erased(source)
        except rattle_tokens.SourceError as error:
            told = f"{error.line}: {error.text}"
            check(told == line, f"{title}: {told!r}")
            count += 1
        else:
            raise AssertionError(f"{title} got through: {found}")
    check(count > 5, f"{count} constructs")
    return f"{count} unknown constructs are errors with their lines"


def copy_of_source(folder, edits=()):
    """Copies what the eraser reads into a folder, with edits of FILE, OLD and NEW."""
    shutil.rmtree(folder, ignore_errors=True)
    os.makedirs(folder)
    for name in ("crates.txt", *[name for name in os.listdir(ROOT) if name.startswith("LICENSE")]):
        shutil.copy(os.path.join(ROOT, name), folder)
    ignored = shutil.ignore_patterns("out", "proofs", "specs", "edits", "stdin", "data")
    shutil.copytree(os.path.join(ROOT, "crates"), os.path.join(folder, "crates"), ignore=ignored)
    shutil.copytree(os.path.join(ROOT, "packaging", "crate"), os.path.join(folder, "packaging", "crate"))
    for file, old, new in edits:
        place = os.path.join(folder, file)
        with open(place, encoding="utf-8") as source:
            text = source.read()
        check(text.count(old) == 1, f"{old!r} is not once in {file}")
        with open(place, "w", encoding="utf-8") as source:
            source.write(text.replace(old, new))


def erase_copy(folder):
    tool = os.path.join(folder, "packaging", "crate", "erase.py")
    ran = subprocess.run(
        [sys.executable, tool, folder, os.path.join(folder, "rust")],
        check=False, stdout=subprocess.PIPE, stderr=subprocess.PIPE, encoding="utf-8",
    )  # fmt: skip
    return ran.returncode, ran.stderr


def check_source():
    file = "crates/demangle_symbol/src/cursor.rt"
    with open(os.path.join(ROOT, file), encoding="utf-8") as source:
        lines = source.read().count("\n")
    copy_of_source(FAULTY, [])
    with open(os.path.join(FAULTY, file), "a", encoding="utf-8") as source:
        source.write("ghost law holds { x }\n")
    status, said = erase_copy(FAULTY)
    wanted = f"{file}:{lines + 1}: no rule for this `ghost`: it has no text\n"
    check(status == 1 and said == wanted, f"status {status}: {said!r}")
    return f"it says {wanted.strip()!r}"


def build_without_std(rust):
    common.cargo(rust, "check", "--package", "kodliwe", "--no-default-features", target=TARGET)


def build(rust):
    common.cargo(rust, "check", "--workspace", "--all-features", target=TARGET)


def support_tests(rust):
    common.cargo(rust, "test", "--package", "kodliwe", "--lib", "support::tests", target=TARGET)


def library_tests(rust):
    common.cargo(rust, "test", "--package", "kodliwe", "--lib", "--all-features", target=TARGET)


# What is edited, the old text, the new one, and the check that has to fail.
FAULTS = {
    "a clause is cut a token too late": (
        "packaging/crate/rules.py",
        "        return follows\n    return end + 1\n",
        "        return follows\n    return end + 3\n",
        build,
    ),
    "a clause is cut a token too early": (
        "packaging/crate/rules.py",
        "        return follows\n    return end + 1\n",
        "        return follows\n    return end\n",
        build,
    ),
    "a search for a byte misses the last one": (
        "packaging/crate/template/support/memchr.rs",
        "text[at..].iter()",
        "text[at..text.len().max(at + 1) - 1].iter()",
        support_tests,
    ),
    "a search for a byte leaves out what follows the last group": (
        "packaging/crate/template/support/memchr.rs",
        "text.last_chunk()",
        "text.first_chunk()",
        support_tests,
    ),
    "a search from the end leaves out what comes before the first group": (
        "packaging/crate/template/support/memchr.rs",
        "text.first_chunk()",
        "text.last_chunk()",
        support_tests,
    ),
    "a search for a byte stops at a byte that is near": (
        "packaging/crate/template/support/memchr.rs",
        "& !difference",
        "",
        support_tests,
    ),
    "a `cfg` is lost": (
        "packaging/crate/modules.py",
        "        if place in gated:\n",
        "        if False:\n",
        build_without_std,
    ),
    "a test's assertion is not kept": (
        "packaging/crate/rules.py",
        '    ("assert_eq!($h;", "assert_eq!("),\n',
        '    ("assert_eq!($h;", "assert_ne!("),\n',
        library_tests,
    ),
    "an item that is used is dropped": (
        "packaging/crate/unused.py",
        "all(use.is_dead() for use in self.uses_of(named))",
        "any(use.is_dead() for use in self.uses_of(named))",
        build,
    ),
    "an argument that is no ghost is dropped": (
        "packaging/crate/ghosts.py",
        "            return words[0].text in self.names\n",
        "            return True\n",
        build,
    ),
}


def passes(test, rust):
    """Returns whether a test of a workspace passes."""
    try:
        test(rust)
    except AssertionError:
        return False
    return True


def check_faults():
    found = []
    for name, (file, old, new, test) in FAULTS.items():
        copy_of_source(FAULTY, [(file, old, new)])
        status, _ = erase_copy(FAULTY)
        if status == 0:
            check(not passes(test, os.path.join(FAULTY, "rust")), f"it is not found that {name}")
        found.append(name)
    copy_of_source(FAULTY)
    status, said = erase_copy(FAULTY)
    check(status == 0, said)
    for test in (build, build_without_std, support_tests, library_tests):
        test(os.path.join(FAULTY, "rust"))
    shutil.rmtree(FAULTY)
    return f"{len(found)} faults are found: {', '.join(found)}; without a fault all tests pass"


CHECKS = [
    ("constructs", check_constructs),
    ("unknown", check_unknown),
    ("source", check_source),
    ("faults", check_faults),
]

if __name__ == "__main__":
    os.makedirs(OUT, exist_ok=True)
    sys.exit(common.steps(CHECKS, sys.argv[1:]))
