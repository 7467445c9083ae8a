"""The shared parts of the measurements: the programs, other programs, and a copy of the library's crates.

The paths and the texts are those of the tests.
"""
import argparse, os, resource, shlex, shutil, subprocess, sys, time

sys.path.append(os.path.join(os.path.dirname(os.path.dirname(os.path.abspath(__file__))), "tests"))
from common import BUILD, CORPUS, FILTER, KODLIWE, ROOT, instructions  # noqa: E402,F401

LIBRARY = "rustc_demangle"
OTHERS = ["rustfilt", "c++filt", "llvm-cxxfilt"]


def need_programs():
    """Ends and says what to do if the programs were not built."""
    for path in (FILTER, KODLIWE):
        if not os.path.exists(path):
            sys.exit("no %s: build it first, by `make`" % path)


def need_tool(name, package):
    """Ends if a program is missing, and says where it is from."""
    if not shutil.which(name):
        sys.exit("no %s on this machine: it is %s" % (name, package))


def need_kit():
    need_tool("rt", "the command of the Rattle kit")


def need_valgrind():
    need_tool("valgrind", "the Debian package valgrind")


def need_rust_crate(folder):
    """Ends if cargo or the folder of the Rust crate is missing."""
    need_tool("cargo", "of the Rust tool chain")
    if not os.path.exists(os.path.join(folder, "Cargo.toml")):
        sys.exit("no Cargo.toml in %s, which is to be the folder of the Rust crate rustc-demangle" % folder)


def further(text):
    """A further program to run, of the form NAME=COMMAND."""
    name, equals, command = text.partition("=")
    words = shlex.split(command)
    if not equals or not words:
        raise argparse.ArgumentTypeError("%r is not of the form NAME=COMMAND" % text)
    if not shutil.which(words[0]):
        raise argparse.ArgumentTypeError("no program %s on this machine" % words[0])
    return name, words


def others():
    """The other demanglers of this machine, by name. Those that are missing are reported on standard error."""
    for name in OTHERS:
        if shutil.which(name):
            yield name, [name]
        else:
            print("no %s on this machine: left out" % name, file=sys.stderr)


def seconds(command, text):
    """How long a program runs over a text: the best of five runs."""
    best = None
    for _ in range(5):
        began = time.perf_counter()
        subprocess.run(command, input=text, stdout=subprocess.DEVNULL, check=True)
        took = time.perf_counter() - began
        best = took if best is None else min(best, took)
    return best


def processor_seconds(command, path):
    """The processor time that a program takes over a file, in it and in the system: the least of five runs, in steps of a microsecond."""
    best = None
    for _ in range(5):
        before = resource.getrusage(resource.RUSAGE_CHILDREN)
        with open(path, "rb") as file:
            subprocess.run(command, stdin=file, stdout=subprocess.DEVNULL, stderr=subprocess.DEVNULL)
        after = resource.getrusage(resource.RUSAGE_CHILDREN)
        took = after.ru_utime + after.ru_stime - before.ru_utime - before.ru_stime
        best = took if best is None else min(best, took)
    return best


def listed():
    """The lines of crates.txt: the crates that each crate uses, by its name."""
    with open(os.path.join(ROOT, "crates.txt")) as file:
        lines = [line.split("#")[0].strip() for line in file]
    parted = (line.partition(":") for line in lines if line)
    return {head.split()[0]: (head, uses.split()) for head, _, uses in parted}


def library_crates():
    """The crates of this repository that a caller of the library needs, the library first."""
    lines = listed()
    found = [LIBRARY]
    for name in found:
        found += [used for used in lines[name][1] if used in lines and used not in found]
    return found


def copy_library(folder, program, edits=()):
    """Copies the library's crates into a folder, with their folders `out`, and adds the line of a program that uses the library.

    Each edit is the end of a file's path in one of the crates, an old text that occurs in it once, and a new one.
    """
    lines = listed()
    names = library_crates()
    for name in names:
        place = os.path.join("crates", name)
        shutil.copytree(os.path.join(ROOT, place), os.path.join(folder, place), ignore=shutil.ignore_patterns("edits"))
    for end, old, new in edits:
        edit(os.path.join(folder, "crates"), end, old, new)
    with open(os.path.join(folder, "crates.txt"), "w") as file:
        file.write("%s: %s\n" % (program, LIBRARY))
        file.writelines("%s: %s\n" % (lines[name][0], " ".join(lines[name][1])) for name in names)


def edit(crates, end, old, new):
    places = [place for place in (os.path.join(crates, name, end) for name in os.listdir(crates)) if os.path.exists(place)]
    if len(places) != 1:
        sys.exit("%s stands in %d crates, and not in one" % (end, len(places)))
    with open(places[0]) as file:
        text = file.read()
    if text.count(old) != 1:
        sys.exit("not once in %s: %s" % (places[0], old))
    with open(places[0], "w") as file:
        file.write(text.replace(old, new))


def build(folder, program, jobs):
    """Builds a program of a folder by `rt run`, and returns its path."""
    place = os.path.join(folder, "crates", program)
    words = ["rt", "run"] + (["--jobs", str(jobs)] if jobs else [])
    run = subprocess.run(words, cwd=place, stdin=subprocess.DEVNULL, stdout=subprocess.PIPE, stderr=subprocess.STDOUT, encoding="utf-8")
    if run.returncode != 0:
        sys.exit("rt run ended with status %d\n%s" % (run.returncode, run.stdout))
    return os.path.join(place, "out", program)
