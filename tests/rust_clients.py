#!/usr/bin/env python3
"""Tries rust/rustc-demangle in place of the published crate, with its tests and those of its users.

usage: rust_clients.py [--crate FOLDER] [STEP..]

  debian     the unit tests of Debian's rustc-demangle, over our public calls: all pass except those
             of DEBIAN_DIFFERENT, which differ for the named reason
  backtrace  the tests of the crate backtrace that pass with Debian's crate pass with ours
  addr2line  the same of the crate addr2line

and with --crate FOLDER, the source of rustc-demangle 0.1.28:

  interface  the tests of rust/rustc-demangle pass with that crate too
  unit       its unit tests, with it and with ours: the same pass, except those of DIFFERENT
  answers    the stored answers and whole texts, with it and with ours
  speed      try_demangle and then {} of 40,000 v0 symbols: at most MOST of its instructions

It needs cargo, valgrind for `speed`, and Debian's packages librust-rustc-demangle-dev,
librust-backtrace-dev and librust-addr2line-dev with those that they name.
"""

import argparse
import glob
import os
import re
import shutil
import struct
import subprocess
import sys

import rust_common as common
import texts
from common import RUST, run
from rust_common import HERE, OUT, check

OURS = os.path.join(RUST, "rustc-demangle")
DEBIAN = "/usr/share/cargo/registry"
WORK = os.path.join(OUT, "clients")
TARGET = os.path.join(OUT, "clients-target")
# Unit tests of 0.1.28 that expect another text than ours (docs/DIFFERENCES.md): the text and ours.
DIFFERENT = {
    "v0::tests::demangle_min_const_generics": (
        '"0xff00ff00ff00ff00ff"',
        f'"{0xFF00FF00FF00FF00FF}"',
    ),
}
# Unit tests of Debian's release, 0.1.21, that expect another text than ours, and why.
DEBIAN_DIFFERENT = {
    # 0.1.21 prints a disambiguator of 0 as `[0]`, which 0.1.28 leaves out.
    "v0::tests::demangle_const_generics_preview",
    # A number of 17 to 32 nibbles is decimal here (docs/DIFFERENCES.md).
    "v0::tests::demangle_min_const_generics",
}
# The most instructions, in those of the published crate.
MOST = 0.77
OPTIONS = argparse.Namespace(crate=None)


def tests_of(said):
    """Returns how each test of `cargo test --no-fail-fast` ended, by program and name."""
    found, program = {}, None
    for line in said.split("\n"):
        began = re.match(r"\s+Running (?:unittests )?(\S+) \(|\s+Doc-tests (\S+)", line)
        if began:
            program = began[1] or "documentation"
            found[program, ""] = "ok"
        told = re.match(r"test (.+) \.\.\. (?:.*\b)?(ok|FAILED|ignored)$", line)
        if told:
            found[program, re.sub(r" \(line \d+\)", "", told[1])] = told[2]
            found.pop((program, ""), None)
        if line == "running 0 tests":
            found.pop((program, ""), None)
    for target in re.findall(r"^\s+`--test (\S+)`", said, re.M):
        if (f"tests/{target}.rs", "") in found:
            found[f"tests/{target}.rs", ""] = "FAILED"
    return found


def passing(found):
    return {test for test, how in found.items() if how == "ok"}


def named(tests):
    return ", ".join(sorted(" ".join(test).strip() for test in tests)) or "none"


def cargo_test(folder, *words):
    """Runs a package's tests, and returns how each ended."""
    env = dict(os.environ, CARGO_TARGET_DIR=TARGET, CARGO_NET_OFFLINE="true")
    env.update(CARGO_TERM_COLOR="never", RUST_BACKTRACE="0")
    check(shutil.which("cargo"), "this machine has no cargo")
    ran = subprocess.run(
        ["cargo", "test", "--no-fail-fast", *words], cwd=folder, env=env, check=False,
        stdout=subprocess.PIPE, stderr=subprocess.STDOUT, encoding="utf-8", errors="replace",
    )  # fmt: skip
    check("test result" in ran.stdout, ran.stdout[-2500:])
    return tests_of(ran.stdout)


def same_ends(name, theirs, ours):
    """Checks that the same tests ended so with either crate."""
    check(theirs and set(theirs) == set(ours), f"{name} ran other tests")
    differ = {test for test in theirs if theirs[test] != ours[test]}
    check(not differ, f"these ended otherwise: {named(differ)}")
    failing = set(theirs) - passing(theirs)
    return f"{len(passing(ours))} of {len(ours)} tests pass with either; others: {named(failing)}"


def folder(name, manifest):
    """Makes a new package, and returns its folder."""
    place = os.path.join(WORK, name)
    shutil.rmtree(place, ignore_errors=True)
    os.makedirs(os.path.join(place, "src"))
    with open(os.path.join(place, "Cargo.toml"), "w", encoding="utf-8") as file:
        file.write(f'[package]\nname = "{name}"\nversion = "0.0.0"\n{manifest}\n[workspace]\n')
    return place


def over(library):
    """Returns the part of a manifest by which a package takes a crate rustc-demangle."""
    return '[features]\nstd = ["rustc-demangle/std"]\n\n' f'[dependencies]\nrustc-demangle = {{ path = "{library}" }}\n'


def published():
    """Returns the folder of the published crate."""
    place = os.path.abspath(OPTIONS.crate)
    check(os.path.exists(os.path.join(place, "src", "v0.rs")), f"no crate is in {place}")
    return place


def check_interface():
    found = []
    for name, library in (("theirs", published()), ("ours", OURS)):
        place = folder(f"interface_{name}", 'edition = "2021"\n\n' + over(library))
        with open(os.path.join(place, "src", "lib.rs"), "w", encoding="utf-8"):
            pass
        shutil.copytree(os.path.join(OURS, "tests"), os.path.join(place, "tests"))
        found.append(cargo_test(place, "--all-features"))
    check(passing(found[0]) == set(found[0]), f"with the crate fail {named(set(found[0]) - passing(found[0]))}")
    return same_ends("the drop-in", *found)


def for_tests_only(path):
    """Returns the items of a source that only its tests use."""
    with open(path, encoding="utf-8") as file:
        text = file.read()
    # A copy of the source may lack the last line feed.
    pattern = r"^#\[cfg\(test\)\]\n(?:macro_rules!|mod) \w+ \{\n.*?^\}$"
    items = [item + "\n" for item in re.findall(pattern, text, re.M | re.S)]
    check(any("mod tests {" in item for item in items), f"no tests are in {path}")
    return "\n".join(items)


def unit_tests(source, name, library, edits=()):
    """Runs a crate's unit tests around the public calls of a library."""
    place = folder(name, over(library))
    target = os.path.join(place, "src")
    with open(os.path.join(HERE, "unit.rs"), encoding="utf-8") as file:
        public = file.read()
    v0 = for_tests_only(os.path.join(source, "v0.rs"))
    for old, new in edits:
        check(v0.count(old) == 1, f"{old} is not once in the tests of v0")
        v0 = v0.replace(old, new)
    lib = for_tests_only(os.path.join(source, "lib.rs"))
    texts = {
        "lib.rs": f"{public}\n{lib}\nmod legacy;\nmod v0;\n",
        "legacy.rs": for_tests_only(os.path.join(source, "legacy.rs")),
        "v0.rs": "#[cfg(test)]\npub use refused::*;\n\n" + v0,
    }
    for file, text in texts.items():
        with open(os.path.join(target, file), "w", encoding="utf-8") as out:
            out.write(text)
    for data in glob.glob(os.path.join(source, "*", "")):
        shutil.copytree(data, os.path.join(target, os.path.basename(os.path.dirname(data))))
    return cargo_test(place, "--all-features")


def check_unit():
    source = os.path.join(published(), "src")
    theirs = unit_tests(source, "unit_theirs", published())
    ours = unit_tests(source, "unit_ours", OURS)
    edited = unit_tests(source, "unit_edited", OURS, DIFFERENT.values())
    check(passing(theirs) == set(theirs), f"with the crate fail {named(set(theirs) - passing(theirs))}")
    failing = {name for _, name in set(ours) - passing(ours)}
    check(set(ours) == set(theirs) and failing == set(DIFFERENT), f"with ours fail {sorted(failing)}")
    check(passing(edited) == set(edited), f"with our texts fail {named(set(edited) - passing(edited))}")
    return f"{len(theirs)} pass with the crate, with ours all but {', '.join(DIFFERENT)}"


def check_debian():
    places = sorted(glob.glob(os.path.join(DEBIAN, "rustc-demangle-[0-9]*")))
    check(places, "Debian's package librust-rustc-demangle-dev is not installed")
    ours = unit_tests(os.path.join(places[-1], "src"), "unit_debian", OURS)
    failing = {name for _, name in set(ours) - passing(ours)}
    check(len(ours) > 30 and failing == DEBIAN_DIFFERENT, f"of {len(ours)} fail {sorted(failing)}")
    return f"of {len(ours)} tests of {os.path.basename(places[-1])} all pass but {sorted(failing)}"


def check_client(name):
    """Returns a check of a crate that uses rustc-demangle."""

    def call():
        places = sorted(glob.glob(os.path.join(DEBIAN, name + "-[0-9]*")))
        theirs = sorted(glob.glob(os.path.join(DEBIAN, "rustc-demangle-[0-9]*")))
        check(places and theirs, f"Debian's package librust-{name}-dev is not installed")
        found = []
        for which, library in (("theirs", theirs[-1]), ("ours", OURS)):
            place = os.path.join(WORK, which, name)
            shutil.rmtree(place, ignore_errors=True)
            shutil.copytree(places[-1], place, ignore=shutil.ignore_patterns("Cargo.lock"))
            patch = f'[patch.crates-io]\nrustc-demangle = {{ path = "{library}" }}\n'
            config = os.path.join(WORK, which, ".cargo", "config.toml")
            os.makedirs(os.path.dirname(config), exist_ok=True)
            with open(config, "w", encoding="utf-8") as file:
                file.write('[source.crates-io]\nreplace-with = "debian"\n\n')
                file.write(f'[source.debian]\ndirectory = "{DEBIAN}"\n\n')
                file.write(patch if which == "ours" else "")
            found.append(cargo_test(place))
            words = ("tree", "--prefix", "none", "--invert", "rustc-demangle")
            tree = common.cargo(place, *words, target=TARGET)
            check((library in tree) == (which == "ours"), f"it was built with another: {tree}")
        return same_ends(os.path.basename(places[-1]), *found)

    return call


def has_streams():
    """Returns whether the published crate has `demangle_stream`. Debian's release has none."""
    with open(os.path.join(published(), "Cargo.toml"), encoding="utf-8") as file:
        return re.search(r"^std = ", file.read(), re.M) is not None


def calls_program(name="calls", source=os.path.join(HERE, "calls.rs"), **variables):
    """Builds a program that has both libraries, under these variables, and returns its path."""
    copy = os.path.join(WORK, "published")
    shutil.rmtree(copy, ignore_errors=True)
    shutil.copytree(published(), copy)
    manifest = os.path.join(copy, "Cargo.toml")
    with open(manifest, encoding="utf-8") as file:
        text = file.read()
    std = '"std"' if has_streams() else ""
    with open(manifest, "w", encoding="utf-8") as file:
        file.write(text.replace('name = "rustc-demangle"', 'name = "rustc-demangle-published"', 1))
    place = folder(
        name,
        f'edition = "2021"\n\n[[bin]]\nname = "{name}"\npath = "{source}"\n\n[dependencies]\n'
        f'ours = {{ package = "rustc-demangle", path = "{OURS}", features = ["std"] }}\n'
        f'theirs = {{ package = "rustc-demangle-published", path = "{copy}", features = [{std}] }}\n\n'
        '[profile.release]\nopt-level = 3\nlto = "fat"\ncodegen-units = 1\ndebug = 1\n',
    )
    common.cargo(place, "build", "--release", target=TARGET, **variables)
    return os.path.join(TARGET, "release", name)


def check_answers():
    program = calls_program()
    rows = [row for row in common.rows() if row[0] == "answer" and common.is_utf8(row[1])]
    records = b"".join(struct.pack("<I", len(text)) + text for _, text, _, _ in rows)
    fields = common.fields_of(run([program, "answers"], input=records))
    check(len(fields) == 8 * len(rows), f"{len(fields)} fields for {len(rows)} texts")
    differ = 0
    for at, (_, text, _, (status, as_str, *forms)) in enumerate(rows):
        ours, theirs = fields[8 * at : 8 * at + 4], fields[8 * at + 4 : 8 * at + 8]
        stored = text if as_str == b"=" else texts.unescaped(as_str)
        right = ours[0] == bytes([status == b"OK"]) and ours[1] == stored
        check(right and list(map(texts.column, ours[2:])) == forms, f"{text[:80]!r}")
        check(ours[:2] == theirs[:2], f"{text[:80]!r} is read otherwise")
        differ += ours != theirs
    for include_hash in ("true", "false"):
        text = b" ".join(text for _, text, _, _ in rows if b"\n" not in text)
        ours, theirs = common.fields_of(run([program, "stream", include_hash], input=text * 2))
        check(len(ours) > 100_000, f"{len(ours)} bytes of a text")
    return f"{len(rows)} texts are as stored; {differ} print a text of docs/DIFFERENCES.md"


def v0_symbols():
    """Returns 40,000 symbols of the Rust compiler's own library, spread over all of it."""
    root = run(["rustc", "--print", "sysroot"]).decode().strip()
    found = set()
    for library in glob.glob(os.path.join(root, "lib", "librustc_driver-*.so")):
        found |= set(re.findall(r" (_R\S+)$", run(["nm", library]).decode(), re.M))
    check(len(found) >= 40_000, f"the Rust compiler's library has {len(found)} v0 symbols")
    names = sorted(found)
    return [names[at * len(names) // 40_000] for at in range(40_000)]


def instructions(command, text):
    words = ["valgrind", "--tool=callgrind", "--callgrind-out-file=/dev/null", *command]
    check(shutil.which("valgrind"), "this machine has no valgrind")
    ran = subprocess.run(words, input=text, stdout=subprocess.DEVNULL, stderr=subprocess.PIPE, check=True)
    return int(re.search(rb"Collected : (\d+)", ran.stderr).group(1))


def counted(program, job, text, count):
    """Returns the instructions a symbol: three rounds less one."""
    few, many = (instructions([program, "count", job, rounds], text) for rounds in ("1", "3"))
    return (many - few) // (2 * count)


def check_speed():
    program = calls_program()
    symbols = v0_symbols()
    said = run([program, "time", "15"], input="\n".join(symbols).encode()).decode()
    print("   ", said.strip().replace("\n", "; "), "nanoseconds a symbol")
    few = symbols[::20]
    text = "\n".join(few).encode()
    counts = {}
    for job in ("try theirs", "try ours", "path theirs", "path ours"):
        counts[job] = counted(program, job, text, len(few))
    share = counts["path ours"] / counts["path theirs"]
    check(share <= MOST, f"{share:.3f} of the crate's instructions: {counts}")
    return f"{counts} instructions a symbol: {share:.3f} of the crate's"


CHECKS = [("debian", check_debian)]
CHECKS += [(name, check_client(name)) for name in ("backtrace", "addr2line")]
WITH_CRATE = [
    ("interface", check_interface),
    ("unit", check_unit),
    ("answers", check_answers),
    ("speed", check_speed),
]


def main():
    parser = argparse.ArgumentParser(usage=__doc__.split("\n")[2][len("usage: ") :])
    parser.add_argument("--crate")
    parser.add_argument("steps", nargs="*")
    options = parser.parse_args()
    OPTIONS.crate = options.crate
    checks = CHECKS + (WITH_CRATE if options.crate else [])
    return common.steps(checks, options.steps)


if __name__ == "__main__":
    os.makedirs(WORK, exist_ok=True)
    sys.exit(main())
