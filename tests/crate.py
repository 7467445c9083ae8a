#!/usr/bin/env python3
"""Tests the Rust crate in rust/, which is made from the Rattle source.

usage: crate.py [STEP..]

  same        rust/ is what packaging/crate/erase.py makes of the source
  tests       the repository's tests, erased, and the crate's own: in debug and release, without std
  examples    the programs of examples/ print what they have to
  lints       cargo fmt, clippy and doc report nothing; no lint is off but `unsafe_code`, in the modules that need it
  corpus      the stored answers, pieces and limits of crates/demangle_corpus/stdin
  damaged     50,000 damaged symbols, by calls and by both programs, against stored digests
  programs    both programs on the inputs that are stored next to their sources
  filter      tests/filter.py over the program demangle_filter; tests/program.py tries kodliwe itself
  interface   the public items and their signatures are those of tests/crate/interface.txt
  recursion   no function of the library or of its programs calls itself, in the machine code of a debug build
  no_std      a static library without std needs at most five functions of C and a 128-bit division
  package     `cargo package` makes the .crate files, with their licences, and builds each from its own

It needs cargo, a C compiler and `nm`. tests/characters.py compares the table of characters with the kit's. Work is done in out/crate.
"""

import filecmp
import html
import os
import re
import shutil
import subprocess
import sys
import tarfile

import call_graph
import rust_common as common
import texts
from common import ROOT, RUST, run
from rust_common import OUT, cargo, check

RELEASE = os.path.join(OUT, "target", "release")
LICENCES = {"LICENSE", "LICENSE-MIT-rustc-demangle", "LICENSE-APACHE-rustc-demangle"}
# The packages that are made from the source, and those that are libraries.
ERASED = ("kodliwe", "kodliwe-cli")
LIBRARIES = ("--package", "kodliwe", "--package", "rustc-demangle")
INTERFACE = os.path.join(common.HERE, "interface.txt")


def files_of(folder):
    """Returns the files below a folder, without what cargo builds."""
    found = set()
    for place, folders, names in os.walk(folder):
        folders[:] = [name for name in folders if name != "target"]
        found |= {os.path.relpath(os.path.join(place, name), folder) for name in names}
    return found


def check_same():
    anew = os.path.join(OUT, "anew")
    common.erase(anew)
    ours, theirs = files_of(RUST), files_of(anew)
    check(ours == theirs, f"these files are in one alone: {sorted(ours ^ theirs)[:5]}")
    _, differ, errors = filecmp.cmpfiles(RUST, anew, sorted(ours), shallow=False)
    check(not differ + errors, f"run `make crate`: these files differ: {(differ + errors)[:5]}")
    return f"{len(ours)} files are as they are made"


def tests_in_source():
    """Counts the tests of the source that can be erased."""
    names = {name for package in ERASED for name in os.listdir(os.path.join(RUST, package, "src"))}
    counts = {}
    for name in names:
        for place, _, files in os.walk(os.path.join(ROOT, "crates", name, "src")):
            for file in (os.path.join(place, file) for file in files if file.endswith(".rt")):
                with open(file, encoding="utf-8") as source:
                    text = source.read()
                counts[file] = len(re.findall(r"^#\[test\]$", text, re.M))
                if "linked_list_allocator" in text:
                    counts[file] = 0  # In stable Rust, a `Vec` cannot have another allocator.
    return sum(counts.values())


def count_passed(said):
    check(" 0 failed" in said and "FAILED" not in said, said[-2500:])
    return sum(map(int, re.findall(r"test result: ok\. (\d+) passed", said)))


def check_tests(rust=RUST):
    wanted = tests_in_source()
    packages = [word for package in ERASED for word in ("--package", package)]
    said = cargo(rust, "test", *packages, "--lib", "--all-features", "--", "--skip", "support::tests")
    erased = count_passed(said)
    check(wanted > 150 and erased == wanted, f"{erased} tests were run, the source has {wanted}")
    debug = count_passed(cargo(rust, "test", "--workspace", "--all-features", "--no-fail-fast"))
    # Without link-time optimization, which takes minutes for each of the test programs.
    quick = {"CARGO_PROFILE_RELEASE_LTO": "off", "CARGO_PROFILE_RELEASE_CODEGEN_UNITS": "16"}
    words = ["test", "--workspace", "--all-features", "--release"]
    release = count_passed(cargo(rust, *words, target=os.path.join(OUT, "quick"), **quick))
    without = count_passed(cargo(rust, "test", *LIBRARIES, "--no-default-features"))
    check(debug == release > erased and without > 20, f"{debug}, {release} and {without} tests")
    return (
        f"all {erased} tests of the source that can be erased pass; with the crate's own and those "
        f"of the documentation {debug} in debug and release, {without} without std"
    )


# Each example, its input, and what it prints on standard output and standard error.
EXAMPLES = [
    ("panic_hook", b"", rb"", rb"panicked at \S+panic_hook\.rs:\d+:\d+ in mio::poll\n"),
    ("profile", b"      3 _RINvC1a1bhE\n      1 main\n      2 _RINvC1a1bmE\n", rb" {9}5 a::b::<_>\n {9}1 main\n", rb""),
    ("symbols", b"0 T _RNvC3foo3bar\n1 T main\n2 T _ZN3foo17h05af221e174051e9E\n", rb"0 T foo::bar\n2 T foo\n", rb""),
]


def check_examples(rust=RUST):
    cargo(rust, "build", "--package", "kodliwe", "--examples")
    folder = os.path.join(OUT, "target", "debug", "examples")
    with os.scandir(os.path.join(rust, "kodliwe", "examples")) as files:
        check({file.name for file in files} == {name + ".rs" for name, *_ in EXAMPLES}, "an example is not tried")
    for name, text, *wanted in EXAMPLES:
        ran = subprocess.run([os.path.join(folder, name)], input=text, check=True, stdout=subprocess.PIPE, stderr=subprocess.PIPE)
        check(all(map(re.fullmatch, wanted, (ran.stdout, ran.stderr))), f"{name} printed {ran.stdout} and {ran.stderr}")
    return f"{len(EXAMPLES)} programs"


def check_lints(rust=RUST):
    cargo(rust, "fmt", "--all", "--check")
    for words in (["--workspace", "--all-features"], LIBRARIES, [*LIBRARIES, "--no-default-features"]):
        cargo(rust, "clippy", *words, "--all-targets", "--", "-D", "warnings", "-D", "clippy::undocumented_unsafe_blocks")
        cargo(rust, "doc", *words, "--no-deps", RUSTDOCFLAGS="-D warnings")
    files = [name for name in files_of(rust) if re.search(r"/src/.*\.rs$", name)]
    for name in files:
        with open(os.path.join(rust, name), encoding="utf-8") as file:
            check(not re.search(r"#!?\[(cfg_attr.*)?\b(allow|expect)\((?!unsafe_code\))", file.read()), f"{name} switches a lint off")
    return f"cargo fmt, clippy and doc have nothing to say, with each set of features; no lint is off in {len(files)} files"


def compare_corpus(words):
    """Compares a build of answers.rs with the stored rows, and returns how many there are."""
    rows = [row for row in common.rows() if common.is_utf8(row[1])]
    records = b"".join(texts.record(symbol, limit) for _, symbol, limit, _ in rows)
    fields = common.fields_of(run([*words, "records"], input=records))
    check(len(fields) == 5 * len(rows) > 20_000, f"{len(fields)} fields for {len(rows)} rows")
    for at, (kind, symbol, limit, wanted) in enumerate(rows):
        status, as_str, plain, alt, pieces = fields[5 * at : 5 * at + 5]
        forms = [texts.column(plain), texts.column(alt)]
        if kind == "pieces":
            forms = [b"\\|".join(map(texts.escaped, form.split(b"\x1f"))) for form in pieces.split(b"\x1e")]
        if kind == "answer":
            text = b"=" if as_str == symbol else texts.escaped(as_str)
            forms = [status, text, *forms]
        check(forms == wanted, f"{kind} of {symbol[:80]!r} under {limit}: {forms!r:.300}")
    return len(rows)


def check_corpus(rust=RUST):
    rows = compare_corpus([common.answers_program(rust)])
    return f"{rows} stored rows: status, as_str, both forms, pieces and limits"


def as_filter(symbol, line, filtered):
    """Returns the line of demangle_filter, if that of kodliwe differs only because it keeps `_RC` or takes a `_` in, or is cut earlier."""
    if texts.is_cut_earlier(line, filtered):
        return filtered
    before = re.split(rb"_(?:ZN|R)", symbol, maxsplit=1)[0]
    if line == symbol and symbol[len(before) :].startswith(b"_RC"):
        return filtered
    return b"_" + line if before == b"_" and line != symbol else line


def check_damaged(rust=RUST):
    symbols = common.damaged_symbols()
    with open(os.path.join(common.HERE, "damaged.txt"), encoding="ascii") as file:
        stored = [line.split() for line in file if not line.startswith("#")]
    text = b"\n".join(symbols) + b"\n"
    said = run([common.answers_program(rust), "lines"], input=text).split(b"\n")[:-1]
    accepted = sum(line.startswith(b"OK") for line in said)
    cargo(rust, "build", "--release")
    outputs = [said]
    for words in (["demangle_filter"], ["demangle_filter", "--no-hash"], ["kodliwe"]):
        program = os.path.join(RELEASE, words[0])
        outputs.append(run([program, *words[1:]], input=text).split(b"\n")[:-1])
    cut = sum(map(texts.is_cut_earlier, outputs[-1], outputs[-2]))
    check(cut == 20, f"kodliwe cuts {cut} earlier than demangle_filter")
    outputs[-1] = [as_filter(*lines) for lines in zip(symbols, outputs[-1], outputs[-2])]
    check(all(len(lines) == len(symbols) for lines in outputs), "a symbol has not one line")
    found = [list(row) for row in zip(*map(common.digests, outputs))]
    wanted = [[lines, plain, alt, alt] for lines, plain, alt in stored]
    wrong = [at for at, row in enumerate(found) if row != wanted[at]]
    check(len(found) == len(wanted) and not wrong, f"these thousands differ: {wrong}")
    return f"{len(symbols)} damaged symbols, {accepted} of them accepted, are as stored, and kodliwe cuts {cut} earlier"


def check_programs():
    cargo(RUST, "build", "--release")
    for name in ("kodliwe", "demangle_filter"):
        place = os.path.join(ROOT, "crates", name)
        words = []
        if os.path.exists(os.path.join(place, "args")):
            with open(os.path.join(place, "args"), encoding="utf-8") as file:
                words = file.read().split("\n")[:-1]
        data = os.path.join(place, "data")
        with open(os.path.join(place, "stdin"), "rb") as text, open(os.path.join(place, "stdout"), "rb") as stored:
            command = [os.path.join(RELEASE, name), *words]
            said = run(command, stdin=text, cwd=data if os.path.isdir(data) else place)
            check(said == stored.read(), f"{name} wrote {said[:300]!r}")
    return "kodliwe and demangle_filter write what is stored beside their sources"


def check_filter():
    cargo(RUST, "build", "--release")
    command = [sys.executable, os.path.join(ROOT, "tests", "filter.py"), "--program", os.path.join(RELEASE, "demangle_filter")]
    said = subprocess.run(command, check=False, stdout=subprocess.PIPE, encoding="utf-8").stdout
    check(said.endswith(" passed, 0 failed\n"), said[-2500:])
    return said.splitlines()[-1]


def without_tags(text):
    return " ".join(html.unescape(re.sub(r"<[^>]*>", "", text)).split())


def interface_of(folder):
    """Returns the lines that rustdoc's pages of a crate have for its items, methods and traits."""
    lines = []
    for name in sorted(files_of(folder)):
        kind = re.match(r"(struct|enum|trait|fn|constant|type|macro)\.", os.path.basename(name))
        if kind is None:
            continue
        with open(os.path.join(folder, name), encoding="utf-8") as file:
            page = file.read().split('id="synthetic-implementations"')[0].split('id="blanket-implementations"')[0]
        found = re.findall(r'<pre class="rust item-decl">(.*?)</pre>|<h[34] class="code-header">(.*?)</h[34]>', page, re.S)
        lines += [f"{name[:-5]}: {without_tags(declared or header)}" for declared, header in found]
    return sorted(set(lines))


def check_interface(rust=RUST):
    cargo(rust, "doc", *LIBRARIES, "--no-deps", "--all-features")
    pages = {name: interface_of(os.path.join(OUT, "target", "doc", name)) for name in ("kodliwe", "rustc_demangle")}
    lines = [f"{name} {line}" for name, found in pages.items() for line in found]
    with open(INTERFACE, encoding="utf-8") as file:
        stored = file.read().splitlines()
    new, gone = [line for line in lines if line not in stored], [line for line in stored if line not in lines]
    check(len(lines) > 60 and lines == stored, f"write it to {INTERFACE}: new {new[:5]}, gone {gone[:5]}")
    return f"{len(lines)} items, methods and traits are as stored"


def check_recursion(rust=RUST):
    """Looks for functions that call themselves. std has such ones, those of the published crate, which have to be found."""
    target = os.path.join(OUT, "recursion")
    flags = "-C relocation-model=static -C symbol-mangling-version=v0"
    cargo(rust, "build", "--package", "kodliwe-cli", target=target, RUSTFLAGS=flags)
    told = []
    for program in ("kodliwe", "demangle_filter"):
        graph, indirect = call_graph.calls_of(os.path.join(target, "debug", program))
        ours = {name for name in graph if re.search(r"Cs[0-9A-Za-z]+_(?:7kodliwe|11kodliwe_cli)", name)}
        cycles = call_graph.cycles_of(graph)
        check(any("14rustc_demangle2v0" in name for cycle in cycles for name in cycle), "the recursion of the published crate is not found")
        wrong = [cycle for cycle in cycles if ours.intersection(cycle)]
        check(not wrong, f"{program}: {wrong[:3]}")
        unknown = sum(indirect.get(name, 0) for name in ours)
        check(unknown < len(ours) / 50, f"{program}: {unknown} calls of {len(ours)} functions are of an unknown one")
        told.append(f"{program}: {len(ours)} functions, {unknown} calls of an unknown one")
    return ", ".join(told)


def check_no_std(rust=RUST):
    folder = common.package(
        "no_std",
        f'[features]\nstd = ["rustc-demangle/std"]\n\n[dependencies]\nrustc-demangle = {{ path = '
        f'"{rust}/rustc-demangle" }}\n\n[lib]\ncrate-type = ["staticlib"]\npath = "{common.HERE}/'
        f'no_std.rs"\n\n[profile.release]\npanic = "abort"\nlto = true\nopt-level = 3\n',
    )
    cargo(folder, "build", "--release")
    archive, program = os.path.join(RELEASE, "libno_std.a"), os.path.join(folder, "program")
    words = [os.path.join(common.HERE, "no_std.c"), archive, "-o", program]
    run(["cc", "-O1", "-Wall", "-Wextra", "-Wl,--gc-sections", *words])
    said = run([program, "_ZN3foo17h05af221e174051e9E", "_RNvC3foo3bar", "main"])
    check(said == b"foo\nfoo::bar\nmain\n", repr(said))
    needed = undefined_of(archive)
    allowed = {"memcpy", "memmove", "memset", "memcmp", "bcmp", "__udivti3", "__umodti3"}
    check(needed <= allowed, f"it needs {sorted(needed - allowed)}")
    said = cargo(folder, "build", "--release", "--features", "std", status=1)
    check("panic_impl" in said, "with the feature std it is built too, so this shows nothing")
    return f"it is linked without std, prints, and needs {', '.join(sorted(needed))} alone"


def undefined_of(archive):
    """Returns what the archive's own object needs; the rest are Rust's `core` and intrinsics."""
    text = run(["nm", archive], stdin=subprocess.DEVNULL).decode()
    for member in text.split("\n\n"):
        if re.search(r" T path_of$", member, re.M):
            return set(re.findall(r"^ +U (\S+)$", member, re.M))
    raise AssertionError("no object of the archive has the function")


def check_package():
    target = os.path.join(OUT, "package")
    shutil.rmtree(target, ignore_errors=True)
    # In another home of cargo, a package is built over the one below it as an earlier run packed that.
    home = os.path.join(target, "home")
    cargo(RUST, "package", "--workspace", "--allow-dirty", "--offline", target=target, CARGO_HOME=home)
    counts = []
    for name, licences in (
        ("kodliwe-0.1.0", LICENCES | {"LICENSE-UNICODE"}),
        ("kodliwe-cli-0.1.0", LICENCES),
        ("rustc-demangle-0.1.28", LICENCES),
    ):
        with tarfile.open(os.path.join(target, "package", name + ".crate")) as file:
            names = {place.partition("/")[2] for place in file.getnames()}
        missing = licences - names
        check(not missing, f"{name} lacks {missing}")
        counts.append(f"{name} with {len(names)} files")
    return ", ".join(counts)


CHECKS = [
    ("same", check_same),
    ("tests", check_tests),
    ("examples", check_examples),
    ("lints", check_lints),
    ("corpus", check_corpus),
    ("damaged", check_damaged),
    ("programs", check_programs),
    ("filter", check_filter),
    ("interface", check_interface),
    ("recursion", check_recursion),
    ("no_std", check_no_std),
    ("package", check_package),
]

if __name__ == "__main__":
    os.makedirs(OUT, exist_ok=True)
    sys.exit(common.steps(CHECKS, sys.argv[1:]))
