#!/usr/bin/env python3
"""Tries bindings/python over the shared library, the proved one that `make` built and the tested one of `make KIT=none`.

It prints a line for each of these:

  tests           the unit tests, over each library
  beside kodliwe  the module as a program, compared with kodliwe, over each library
  without one     the unit tests without a library fail at once, with one line
  pip install     into a new venv, without a network and a library: cargo builds one, which the wheel has
  pip, named      the same with KODLIWE_LIB, and without cargo: the wheel has a copy of that library
  pip, installed  the same with a library in the prefix of the venv: the wheel has none, and the module loads that one
  without cargo   one line says what helps, and there is no wheel
  source archive  `pip wheel` of it, in a folder where nothing else of the repository is
  types           a program that is typed strictly over the installed module, and one that is wrong

The last line is 'N passed, N failed'.
"""
import argparse
import glob
import os
import re
import shutil
import subprocess
import sys
import tempfile
import zipfile

from common import CORPUS, ROOT, Library, Tally, add_libraries, built, run, same, tool

PACKAGE = os.path.join(ROOT, "bindings", "python")
STATUS = run(["git", "status", "--porcelain", "--", PACKAGE, "rust"], cwd=ROOT)
TESTS = [sys.executable, "-m", "unittest", "discover", "-s", os.path.join(PACKAGE, "tests")]


def environment(**more):
    return dict(os.environ, PYTHONDONTWRITEBYTECODE="1", **more)


def check_tests(library):
    with tempfile.TemporaryDirectory() as folder:
        place = os.path.join(folder, "libkodliwe.so")
        os.symlink(built(library.shared), place)
        ran = subprocess.run(TESTS, stderr=subprocess.PIPE, env=environment(KODLIWE_LIB=place), timeout=300)
    said = ran.stderr.decode()
    counted = re.search(r"Ran (\d+) tests", said)
    assert ran.returncode == 0 and counted and "skipped" not in said, said[-1500:]
    return "%s tests" % counted[1]


def check_without():
    """Tries the tests with no library: they must end within seconds and start no other test."""
    ran = subprocess.run(TESTS, stderr=subprocess.PIPE, env=environment(KODLIWE_LIB="/none.so"), timeout=60)
    said = ran.stderr.decode()
    assert ran.returncode == 1 and "Ran 0 tests" in said, said[-1500:]
    same(len(re.findall(r"^OSError: kodliwe finds no libkodliwe.so", said, re.M)), 1)


def check_program(library):
    """Compares what the module prints as a program, and its status, with kodliwe."""
    symbol, program = "_ZN3foo17h05af221e174051e9E", built(os.path.join(library.folder, "kodliwe"))
    module = [sys.executable, os.path.join(PACKAGE, "kodliwe.py")]
    rows = [[], ["-"], ["--hash"], ["--hash", symbol], [symbol, "", "at %s." % symbol], ["-i", CORPUS], ["--input=" + CORPUS, "--hash"]]
    rows += [["-i" + CORPUS, symbol, "-"], ["-l", "5", symbol * 2, "-i", CORPUS], ["-l5", "_ZN3foo3barE.cold"], ["--", "--hash", symbol]]
    rows += [[symbol, "-i", "/none", symbol], ["-i", ROOT], ["-x"], ["-i"], ["--input"], ["-l", "1K", symbol], ["--hash=", symbol]]
    rows += [["RNvC3foo3bar", "ZN3foo3barE", "__ZN3foo3barE"], ["_ZN3fooE.a@_ZN3barE", "x _ZN3fooE y", ""], ["-f", "RINvC3foo3barhE"]]
    rows += [["-", symbol, "-", symbol]]
    env = environment(KODLIWE_LIB=library.shared)
    with open(CORPUS, "rb") as file:
        given = file.read()
    for words, given in [*((words, given) for words in rows), (["-", symbol], b"x _ZN1aE"), (["-i", "-", symbol, symbol], b"")]:
        of_both = [subprocess.run(it + words, input=given, stdout=-1, stderr=-1, env=env, timeout=120) for it in (module, [program])]
        ours, theirs = ((ran.returncode, ran.stdout, bool(ran.stderr)) for ran in of_both)
        assert ours == theirs, (words, ours, theirs)
    return "%d rows" % len(rows)


def python_environment(**more):
    """Returns an environment in which nothing names the module or its library."""
    return {name: value for name, value in environment(**more).items() if name != "PYTHONPATH" and (name in more or name != "KODLIWE_LIB")}


class Venv:
    """A new venv, into which pip installs without a network."""

    def __init__(self, folder):
        self.place, self.env = os.path.join(folder, "venv"), python_environment()
        run([sys.executable, "-m", "venv", self.place])
        self.python = os.path.join(self.place, "bin", "python")
        self.pip = [self.python, "-m", "pip", "--disable-pip-version-check"]

    def install(self, source=PACKAGE, **more):
        """Runs `pip install`, which shows the lines of the build, and returns what it said."""
        words = [*self.pip, "install", "--verbose", "--no-index", source]
        return subprocess.run(words, stdout=subprocess.PIPE, stderr=subprocess.STDOUT, env=python_environment(**more), timeout=600)

    def ran(self, env):
        words = [self.python, "-m", "kodliwe", "_ZN3foo17h05af221e174051e9E", "main"]
        return subprocess.run(words, stdout=subprocess.PIPE, stderr=subprocess.PIPE, env=env, cwd=self.place, timeout=60)

    def loads(self, library, version):
        """Fails if the module is not this version of the library, in this place below the venv."""
        found = self.ran(self.env)
        same((found.returncode, found.stdout, found.stderr), (0, b"foo\nmain\n", b""))
        code = "import kodliwe; print(kodliwe._load()._name); print(kodliwe.version())"
        place, said = run([self.python, "-c", code], env=self.env, cwd=self.place).decode().splitlines()
        (wanted,) = glob.glob(os.path.join(self.place, library))
        same((os.path.realpath(place), said), (os.path.realpath(wanted), version))


NO_CARGO = b"kodliwe: no cargo, which builds libkodliwe: install Rust (https://rustup.rs), or name a library that is there by KODLIWE_LIB"
# Where a wheel has its library.
INSIDE = "lib/python3*/site-packages/kodliwe/libkodliwe.so"


def check_install(tested):
    with tempfile.TemporaryDirectory() as folder:
        venv = Venv(folder)
        ran = venv.install()
        assert ran.returncode == 0 and b"Compiling kodliwe-capi" in ran.stdout, ran.stdout[-2000:]
        venv.loads(INSIDE, tested.version)
        run([*venv.pip, "uninstall", "--yes", "kodliwe"], env=venv.env)
        same(glob.glob(os.path.join(venv.place, INSIDE)), [])
    same(run(["git", "status", "--porcelain", "--", PACKAGE, "rust"], cwd=ROOT), STATUS)


def without_cargo(folder):
    """Returns a PATH that has no cargo."""
    bin = os.path.join(folder, "bin")
    os.makedirs(bin, exist_ok=True)
    return bin


def check_named(library):
    with tempfile.TemporaryDirectory() as folder:
        venv = Venv(folder)
        ran = venv.install(KODLIWE_LIB=library.folder, PATH=without_cargo(folder))
        assert ran.returncode == 0 and b"cargo" not in ran.stdout, ran.stdout[-2000:]
        venv.loads(INSIDE, library.version)
        (inside,) = glob.glob(os.path.join(venv.place, INSIDE))
        with open(inside, "rb") as one, open(library.shared, "rb") as other:
            assert one.read() == other.read(), "the wheel has another library"


def check_installed(library):
    with tempfile.TemporaryDirectory() as folder:
        venv = Venv(folder)
        place = os.path.join(venv.place, "lib", "libkodliwe.so")
        shutil.copy(library.shared, place)
        ran = venv.install(PATH=without_cargo(folder))
        assert ran.returncode == 0 and b"py3-none-any" in ran.stdout, ran.stdout[-2000:]
        assert b"kodliwe: the module will load %s" % place.encode() in ran.stdout, ran.stdout[-2000:]
        venv.loads("lib/libkodliwe.so", library.version)
        os.remove(place)
        how = b"kodliwe: kodliwe finds no libkodliwe.so: `make install PREFIX=%s` in Kodliwe's repository" % venv.place.encode()
        found = venv.ran(dict(venv.env, KODLIWE_LIB="/none.so"))
        assert (found.returncode, found.stdout) == (1, b"") and found.stderr.startswith(how), found.stderr


def check_without_cargo():
    with tempfile.TemporaryDirectory() as folder:
        venv = Venv(folder)
        no_elf = b"kodliwe: this Python can't load %s: OSError: %s: invalid ELF header" % ((CORPUS.encode(),) * 2)
        for words, line in (
            ({}, NO_CARGO),
            ({"KODLIWE_LIB": "/none.so"}, b"kodliwe: KODLIWE_LIB names /none.so, where no library is"),
            ({"KODLIWE_LIB": CORPUS}, no_elf),
        ):
            words = dict(python_environment(**words), PATH=without_cargo(folder))
            ran = subprocess.run([*venv.pip, "wheel", "--no-index", "-w", folder, PACKAGE], stdout=-1, stderr=subprocess.STDOUT, env=words)
            assert ran.returncode == 1 and b"[1 lines of output]" in ran.stdout and line in ran.stdout, ran.stdout
            same(glob.glob(os.path.join(folder, "*.whl")), [])


def check_source_archive(tested):
    with tempfile.TemporaryDirectory() as folder:
        code = "import sys, packing; print(packing.build_sdist(sys.argv[1]))"
        name = run([sys.executable, "-c", code, folder], cwd=PACKAGE, env=environment()).decode().strip()
        venv = Venv(folder)
        run([*venv.pip, "wheel", "--no-index", "-w", folder, os.path.join(folder, name)], env=venv.env, cwd=folder)
        (wheel,) = glob.glob(os.path.join(folder, "*.whl"))
        assert re.fullmatch(r"kodliwe-0\.1\.0-py3-none-linux_\w+\.whl", os.path.basename(wheel)), wheel
        with zipfile.ZipFile(wheel) as file:
            assert file.testzip() is None and b"Root-Is-Purelib: false" in file.read("kodliwe-0.1.0.dist-info/WHEEL")
        ran = venv.install(wheel)
        assert ran.returncode == 0, ran.stdout[-2000:]
        venv.loads(INSIDE, tested.version)
        return os.path.basename(wheel)


TYPED = """\
import kodliwe

text: str = kodliwe.demangle("main")
data: bytes = kodliwe.demangle_text(b"main", hash=True, limit=9)
print(kodliwe.try_demangle("main") is None, text, data, kodliwe.version().upper())
"""


def check_types(library):
    """Tries a program that is typed strictly over the installed module, and one that is wrong."""
    with tempfile.TemporaryDirectory() as folder:
        venv, cache = Venv(folder), os.path.join(folder, "cache")
        assert venv.install(KODLIWE_LIB=library.shared).returncode == 0
        words = [tool("mypy", "mypy"), "--strict", "--cache-dir", cache, "--python-executable", venv.python, "typed.py"]
        for text, status in ((TYPED, 0), (TYPED.replace("text: str", "text: int"), 1)):
            with open(os.path.join(folder, "typed.py"), "w", encoding="utf-8") as file:
                file.write(text)
            ran = subprocess.run(words, stdout=subprocess.PIPE, stderr=subprocess.STDOUT, cwd=folder, env=venv.env)
            assert ran.returncode == status, ran.stdout


def main():
    parser = argparse.ArgumentParser(description=__doc__, formatter_class=argparse.RawDescriptionHelpFormatter)
    add_libraries(parser)
    parser.add_argument("only", nargs="*", metavar="WORD", help="only the parts whose name has one of these words")
    options = parser.parse_args()
    tally, tested = Tally(options.only), Library("tested")
    for kind in [options.library] if options.library else Library.KINDS:
        library = Library(kind)
        tally.step("%s: made" % kind, library.made)
        for name, call in (("tests", check_tests), ("beside kodliwe", check_program), ("pip, named", check_named)):
            tally.step("%s: %s" % (kind, name), call, library)
        tally.step("%s: pip, installed" % kind, check_installed, library)
    tally.step("without a library", check_without)
    tally.step("pip install", check_install, tested)
    tally.step("without cargo", check_without_cargo)
    tally.step("source archive", check_source_archive, tested)
    tally.step("types", check_types, library)
    return tally.end()


if __name__ == "__main__":
    sys.exit(main())
