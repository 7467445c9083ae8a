"""What the tests and the measurements share: paths, tools, other programs' runs, and the tally of a suite."""
import os
import re
import shutil
import subprocess
import sys
import threading
import traceback

ROOT = os.path.dirname(os.path.dirname(os.path.abspath(__file__)))
CORPUS = os.path.join(ROOT, "crates", "demangle_corpus", "stdin")
INCLUDE = os.path.join(ROOT, "include")
# `make` builds these.
BUILD = os.path.join(ROOT, "out", "build")
KODLIWE = os.path.join(BUILD, "kodliwe")
FILTER = os.path.join(BUILD, "demangle_filter")
ARCHIVE = os.path.join(BUILD, "libkodliwe.a")
SHARED = os.path.join(BUILD, "libkodliwe.so.0.1.0")
# `make KIT=none` builds the same here, with cargo and without proofs.
NONE = os.path.join(ROOT, "out", "none", "build")
# The workspace of the Rust crates that packaging/crate makes.
RUST = os.path.join(ROOT, "rust")


class Lacking(Exception):
    """Says that this machine lacks a tool, or that a file was not built."""


def tool(name, package=""):
    """Returns the path of a program, or fails and names the package that has it."""
    found = shutil.which(name)
    if found is None:
        raise Lacking("no %s on this machine%s" % (name, ": the Debian package %s has it" % package if package else ""))
    return found


def built(path):
    """Returns the path of a file that `make` builds, or fails if it is not there."""
    if not os.path.exists(path):
        raise Lacking("no %s: `make` builds it" % os.path.relpath(path, ROOT))
    return path


class Library:
    """The library for C of one build: `proved` by `make`, or `tested`, which `make KIT=none` makes of rust/ with cargo."""

    KINDS = ("proved", "tested")

    def __init__(self, kind):
        self.kind, self.folder = kind, BUILD if kind == "proved" else NONE
        self.archive = os.path.join(self.folder, os.path.basename(ARCHIVE))
        self.shared = os.path.join(self.folder, os.path.basename(SHARED))
        self.version = "kodliwe 0.1.0, " + ("proved with Rattle" if kind == "proved" else "tested, not proved")

    def made(self):
        """Builds the tested library if it is not up to date. The proved one has to be there."""
        if self.kind == "tested":
            env = {name: value for name, value in os.environ.items() if name not in ("MAKEFLAGS", "MFLAGS", "MAKELEVEL")}
            run(["make", "--no-print-directory", "KIT=none", "libraries"], cwd=ROOT, env=env, stdin=subprocess.DEVNULL)
        built(self.archive), built(self.shared)


def add_libraries(parser):
    """Adds the option that names the libraries, by default both."""
    parser.add_argument("--library", choices=Library.KINDS, help="try this library alone; by default both are tried")


def declared_calls():
    """Returns the functions of the headers."""
    with open(os.path.join(INCLUDE, "kodliwe.h"), encoding="utf-8") as file:
        found = re.findall(r"^KODLIWE_API \w+ (kodliwe_\w+)\(", file.read(), re.M)
    return sorted([*found, "rustc_demangle"])


def run(command, **more):
    """Returns what a command wrote. Fails with what the command said if its status is not 0."""
    ran = subprocess.run(command, stdout=subprocess.PIPE, stderr=subprocess.PIPE, **more)
    if ran.returncode != 0:
        said = (ran.stdout[-1500:] + ran.stderr[-1500:]).decode(errors="replace")
        raise AssertionError("%s: status %s\n%s" % (" ".join(map(str, command))[:300], ran.returncode, said))
    return ran.stdout


def instructions(command, text):
    """Returns how many instructions a program takes over a text, from its start to its end."""
    words = [tool("valgrind", "valgrind"), "--tool=callgrind", "--callgrind-out-file=/dev/null", *command]
    ran = subprocess.run(words, input=text, stdout=subprocess.DEVNULL, stderr=subprocess.PIPE, check=True)
    return int(re.search(rb"Collected : (\d+)", ran.stderr).group(1))


def same(found, wanted):
    """Fails if two values differ."""
    assert found == wanted, "found %.300r, wanted %.300r" % (found, wanted)


class Tally:
    """Runs the parts of a suite, prints a line for each, and counts them. Threads may share it."""

    def __init__(self, only=()):
        self.only, self.lock = only, threading.Lock()
        self.passed = self.failed = 0

    def step(self, name, call, *arguments):
        """Runs one part. Any exception is a failure of this part, a missing tool too."""
        if self.only and not any(word in name for word in self.only):
            return
        try:
            told = call(*arguments)
        except Lacking as lacking:
            self.count(name, False, str(lacking))
        except (AssertionError, OSError, subprocess.SubprocessError) as error:
            self.count(name, False, str(error) or traceback.format_exc())
        except Exception:
            self.count(name, False, traceback.format_exc())
        else:
            self.count(name, True, told)

    def count(self, name, is_well, told=None):
        """Counts one part and prints its line."""
        with self.lock:
            self.passed += is_well
            self.failed += not is_well
            print("%s: %s%s" % (name, "ok" if is_well else "FAILED", ", %s" % told if told else ""), flush=True)

    def end(self):
        """Prints 'N passed, N failed' and returns the status. A suite that ran nothing fails."""
        if not self.passed and not self.failed:
            print("no part has this name", file=sys.stderr)
            self.failed = 1
        print("%d passed, %d failed" % (self.passed, self.failed), flush=True)
        return 1 if self.failed else 0
