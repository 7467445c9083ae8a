#!/usr/bin/env python3
"""Installs and packs Kodliwe in new folders, and tries the installed files as a new user would.

It takes what `make` built, and what `make KIT=none` builds, and prints a line for each of these:

  installed   `make install` into an empty folder: the files, and nothing else
  settings    examples/paths.c, built and run with the two variables that `make install` prints
  documents   each link of an installed document leads to an installed file, or to the web
  exports     the shared library's name, and that it exports only the calls of the headers
  said        kodliwe.pc, kodliwe_version, `kodliwe -V` and the package say how it was built: proved, or tested, not proved
  c, static   examples/paths.c by `gcc $(pkg-config ..)`, over the shared library and over the archive
  loaded      rustc_demangle, found by its name in the loaded library
  rust        a Rust program that calls the archive, which pkg-config finds
  python      bindings/python over the installed library, and from `pip install` in a new environment
  program     kodliwe and demangle_filter as installed
  manual      `man` shows each manual
  completions bash, zsh and fish read theirs
  removed     `make uninstall` leaves nothing
  tarball     unpacked in another place: its sums, pkg-config, the program
  package     lintian reports no error; installed by `dpkg -i`, tried, and removed (only as root)
  same        packing again gives the same bytes; with --twice, building from a fresh copy too
  untracked   nothing in the repository that git does not know

  tree        installed, run and removed in a fresh bookworm tree of debootstrap (with --tree)
  choice      without the kit and without KIT, `make` says in one line what both choices are
  room        a clone of the last commit, an empty HOME and no kit: README's commands that need none, `make`, `make dist` and
              `make uninstall`, with their times; `make KIT=none` takes at most two minutes

The last line is 'N passed, N failed'. A missing tool is a failure.
"""
import argparse, glob, hashlib, os, re, shutil, subprocess, sys, tempfile, time

import common
from common import ROOT, Lacking, Library, Tally, add_libraries, declared_calls, tool

SYMBOL, PATH = "_ZN3foo17h05af221e174051e9E", "foo"
CALLS = set(declared_calls())
# The most seconds that `make KIT=none` takes in a new clone.
MOST_SECONDS = 120
LOADING = """
#include <dlfcn.h>
#include <stdio.h>
int main(int count, char **words) {
    void *library = dlopen(words[1], RTLD_NOW);
    int (*call)(const char *, char *, size_t) = library ? (int (*)(const char *, char *, size_t))dlsym(library, "rustc_demangle") : 0;
    char path[64];
    if (!call || call(words[2], path, sizeof path) != 1) return 1;
    puts(path);
    size_t (*version)(char *, size_t) = (size_t (*)(char *, size_t))dlsym(library, "kodliwe_version");
    if (!version || version(path, sizeof path) > sizeof path) return 1;
    puts(path);
    return count != 3;
}
"""


CALLING = """
unsafe extern "C" {
    fn kodliwe_is_symbol(symbol: *const u8, symbol_len: usize) -> bool;
}
fn main() {
    let symbol = b"%s";
    println!("{}", unsafe { kodliwe_is_symbol(symbol.as_ptr(), symbol.len()) });
}
"""


def run(command, text=b"", **more):
    """Returns what a command wrote."""
    return common.run(command, input=text, **more).decode()


def make(*words):
    env = {name: value for name, value in os.environ.items() if name not in ("MAKEFLAGS", "MFLAGS")}
    return run(["make", "--no-print-directory"] + list(words), cwd=ROOT, env=env)


def files(folder):
    """The files below a folder, by their paths in it."""
    return {os.path.relpath(os.path.join(place, name), folder) for place, _, names in os.walk(folder) for name in names}


def wanted(lib="lib"):
    return {
        "bin/kodliwe",
        "bin/demangle_filter",
        "include/kodliwe.h",
        "include/rustc_demangle.h",
        lib + "/libkodliwe.a",
        lib + "/libkodliwe.so",
        lib + "/libkodliwe.so.0",
        lib + "/libkodliwe.so.0.1.0",
        lib + "/pkgconfig/kodliwe.pc",
        "share/man/man1/kodliwe.1",
        "share/man/man1/demangle_filter.1",
        "share/bash-completion/completions/kodliwe",
        "share/zsh/site-functions/_kodliwe",
        "share/fish/vendor_completions.d/kodliwe.fish",
    }


def dead_links(folder):
    """Returns the links of a folder's Markdown files that lead to no file of the folder."""
    found = []
    for name in sorted(files(folder)):
        if not name.endswith(".md"):
            continue
        with open(os.path.join(folder, name), encoding="utf-8") as file:
            targets = re.findall(r"\]\(([^()\s]*)\)", file.read())
        for target in targets:
            path = os.path.normpath(os.path.join(os.path.dirname(name), target.split("#")[0]))
            if not target.startswith(("http", "#")) and path not in files(folder):
                found.append("%s: %s" % (name, target))
    return found


def equal(found, expected):
    if found != expected:
        raise AssertionError("%r in place of %r" % (found, expected))


class Installed:
    """A tree that was installed, and a folder to work in. Its library is of a kind, proved or tested."""

    def __init__(self, tree, work, library, lib="lib"):
        self.tree, self.work, self.library, self.lib = tree, work, library, os.path.join(tree, lib)
        self.env = dict(os.environ, PKG_CONFIG_PATH=os.path.join(self.lib, "pkgconfig"), LD_LIBRARY_PATH=self.lib)

    def flags(self, *more):
        return run([tool("pkg-config")] + list(more) + ["--cflags", "--libs", "kodliwe"], env=self.env).split()

    def paths(self, *more):
        """examples/paths.c, built by the flags of pkg-config."""
        built = os.path.join(self.work, "paths")
        run([tool("gcc"), os.path.join(ROOT, "examples", "paths.c")] + list(more) + self.flags() + ["-o", built])
        return run([built, SYMBOL, "main"], env=self.env)

    def exports(self):
        shared = os.path.join(self.lib, "libkodliwe.so.0")
        equal(re.findall(r"SONAME\s+(\S+)", run([tool("objdump"), "-p", shared])), ["libkodliwe.so.0"])
        listed = run([tool("nm"), "-D", "--defined-only", shared]).split("\n")
        equal({line.split()[2].split("@")[0] for line in listed if line and " A " not in line}, CALLS)

    def c(self):
        equal(self.paths(), PATH + "\nmain\n")

    def static(self):
        equal(self.paths("-Wl,-Bstatic", "-static"), PATH + "\nmain\n")

    def loaded(self):
        source, built = os.path.join(self.work, "loading.c"), os.path.join(self.work, "loading")
        with open(source, "w") as file:
            file.write(LOADING)
        run([tool("gcc"), source, "-o", built, "-ldl"])
        equal(run([built, os.path.join(self.lib, "libkodliwe.so.0"), SYMBOL]), "%s\n%s\n" % (PATH, self.library.version))

    def said(self):
        how = self.library.version.partition(", ")[2]
        with open(os.path.join(self.lib, "pkgconfig", "kodliwe.pc"), encoding="utf-8") as file:
            equal(re.findall(r"^Description: .* \((.*)\)$", file.read(), re.M), [how])
        said = run([os.path.join(self.tree, "bin", "kodliwe"), "-V"])
        equal(("not proved" in said, "Proved with Rattle" in said), (self.library.kind == "tested", self.library.kind == "proved"))

    def rust(self):
        """A Rust program that declares a call of the header, and finds the archive by pkg-config."""
        program = os.path.join(self.work, "program.rs")
        with open(program, "w") as file:
            file.write(CALLING % (SYMBOL))
        folder = run([tool("pkg-config"), "--variable=libdir", "kodliwe"], env=self.env).strip()
        built = os.path.join(self.work, "program")
        run([tool("rustc"), "--edition", "2024", program, "-L", "native=" + folder, "-l", "static=kodliwe", "-o", built])
        equal(run([built]), "true\n")

    def python(self):
        folder = os.path.join(ROOT, "bindings", "python")
        words = ["-c", 'import kodliwe; print(kodliwe.demangle("%s"))' % SYMBOL]
        env = dict(os.environ, PYTHONPATH=folder, PYTHONDONTWRITEBYTECODE="1", KODLIWE_LIB=os.path.join(self.lib, "libkodliwe.so.0"))
        equal(run([sys.executable] + words, env=env, cwd=self.work), PATH + "\n")
        place, copied = os.path.join(self.work, "environment"), os.path.join(self.work, "python")
        shutil.copytree(folder, copied, ignore=shutil.ignore_patterns("__pycache__", "build", "*.egg-info"), dirs_exist_ok=True)
        run([sys.executable, "-m", "venv", "--system-site-packages", place])
        run([os.path.join(place, "bin", "pip"), "install", "--quiet", "--no-index", "--no-build-isolation", copied], env=env)
        env = dict(self.env, KODLIWE_LIB=os.path.join(self.lib, "libkodliwe.so.0"))
        equal(run([os.path.join(place, "bin", "python")] + words, env=env, cwd=self.work), PATH + "\n")

    def program(self):
        line = ("worker 1: called %s\n" % SYMBOL).encode()
        equal(run([os.path.join(self.tree, "bin", "kodliwe")], line), "worker 1: called foo\n")
        equal(run([os.path.join(self.tree, "bin", "kodliwe"), "--hash"], line), "worker 1: called foo::h05af221e174051e9\n")
        equal(run([os.path.join(self.tree, "bin", "kodliwe"), "--version"]).splitlines()[0], "kodliwe 0.1.0")
        equal(run([os.path.join(self.tree, "bin", "demangle_filter"), "--no-hash"], line), "worker 1: called foo\n")

    def manual(self):
        env = dict(self.env, MANPATH=os.path.join(self.tree, "share", "man"), MANPAGER="cat", LC_ALL="C.UTF-8")
        for name in ["kodliwe", "demangle_filter"]:
            # A machine may leave out the system's manuals by a `man` that only says so.
            if name not in run([tool("man"), name], env=env):
                raise AssertionError("man %s shows no page of it" % name)

    def completions(self):
        share = os.path.join(self.tree, "share")
        bash = os.path.join(share, "bash-completion", "completions", "kodliwe")
        asked = 'source %s; complete -p kodliwe > /dev/null && COMP_WORDS=(kodliwe --li) COMP_CWORD=1 COMP_LINE="kodliwe --li"; ' % bash
        asked += 'f=$(complete -p kodliwe | sed "s/.*-F \\([^ ]*\\).*/\\1/"); "$f" kodliwe --li kodliwe; echo "${COMPREPLY[0]}"'
        equal(run([tool("bash"), "-c", asked]).strip().rstrip("="), "--limit")
        run([tool("zsh"), "-n", os.path.join(share, "zsh", "site-functions", "_kodliwe")])
        fish = os.path.join(share, "fish", "vendor_completions.d", "kodliwe.fish")
        found = run([tool("fish"), "-c", 'source %s; complete -C "kodliwe --li"' % fish], env=dict(os.environ, HOME=self.work))
        if "--limit" not in found:
            raise AssertionError("fish completes nothing")

    def documents(self):
        folder = os.path.join(self.tree, "share", "doc", "kodliwe")
        if "docs/C.md" not in files(folder):
            raise AssertionError("no document C.md")
        equal(dead_links(folder), [])

    def parts(self):
        return [
            ("documents", self.documents),
            ("exports", self.exports),
            ("said", self.said),
            ("c", self.c),
            ("static", self.static),
            ("loaded", self.loaded),
            ("rust", self.rust),
            ("python", self.python),
            ("program", self.program),
            ("manual", self.manual),
            ("completions", self.completions),
        ]


def sums(folder):
    return {
        name: hashlib.sha256(open(os.path.join(folder, name), "rb").read()).hexdigest()
        for name in sorted(os.listdir(folder))
        if name.endswith((".tar.gz", ".deb", "SHA256SUMS"))
    }


def package(work, library):
    """The Debian package: lintian, installed, tried, removed."""
    found = glob.glob(os.path.join(library.dist, "*.deb"))
    equal(len(found), 1)
    run([tool("lintian"), "--fail-on", "error"] + found)
    about = run([tool("dpkg-deb"), "-I"] + found)
    # A program of cargo unwinds its stack by a library.
    wanted = ["libc6"] if library.kind == "proved" else ["libc6", "libgcc-s1"]
    equal(re.findall(r"[\w-]+", re.sub(r"\(.*?\)", "", re.search(r"Depends: (.*)", about)[1])), wanted)
    if library.kind == "tested":
        equal(("tested, not proved" in about, "proved for" in about), (True, False))
    if os.geteuid() != 0:
        raise Lacking("root, to install the package")
    if os.path.exists("/usr/bin/kodliwe"):
        raise AssertionError("kodliwe is installed on this machine already")
    run(["dpkg", "-i"] + found)
    try:
        tree = Installed("/usr", work, library, "lib/x86_64-linux-gnu")
        tree.env = {name: value for name, value in tree.env.items() if name not in ("PKG_CONFIG_PATH", "LD_LIBRARY_PATH")}
        for name, part in tree.parts():
            # The system's zsh looks elsewhere, and a container may leave manuals out.
            if name not in ("completions", "manual"):
                part()
        equal(os.path.exists("/usr/share/man/man1/kodliwe.1.gz") or excluded(), True)
    finally:
        run(["dpkg", "-r", "kodliwe"])
    equal(os.path.exists("/usr/bin/kodliwe"), False)


def fresh_tree(work, library):
    """Installs the package in an empty bookworm tree, and runs what it has there."""
    if os.geteuid() != 0:
        raise Lacking("root is needed, to make a tree of debootstrap")
    root, (package,) = os.path.join(work, "root"), glob.glob(os.path.join(library.dist, "*.deb"))
    # The mirror is the one that this machine's apt reads.
    listed = run([tool("apt-get"), "indextargets", "--format", "$(CODENAME) $(SITE)"]).split("\n")
    mirrors = [line.split()[1] for line in listed if line.startswith("bookworm ")]
    run([tool("debootstrap", "debootstrap"), "--variant=minbase", "bookworm", root, *mirrors[:1]])
    shutil.copy(package, os.path.join(root, "kodliwe.deb"))
    run(["chroot", root, "dpkg", "-i", "/kodliwe.deb"])
    line = ("worker 1: called %s\n" % SYMBOL).encode()
    equal(run(["chroot", root, "kodliwe"], line), "worker 1: called foo\n")
    equal(run(["chroot", root, "demangle_filter", "--no-hash"], line), "worker 1: called foo\n")
    installed = [name for name in run(["dpkg-deb", "--contents", package]).split() if name.startswith("./usr/")]
    run(["chroot", root, "dpkg", "-r", "kodliwe"])
    left = [name for name in installed if not name.endswith("/") and os.path.lexists(os.path.join(root, name))]
    equal(left, [])


def excluded():
    """Whether this machine's dpkg leaves manuals out."""
    return any("/usr/share/man" in open(place).read() for place in glob.glob("/etc/dpkg/dpkg.cfg.d/*"))


def kitless_environment():
    """Returns the environment without `rt` on the PATH."""
    env = {name: value for name, value in os.environ.items() if name not in ("MAKEFLAGS", "MFLAGS", "MAKELEVEL", "KIT", "KODLIWE_LIB")}
    env["PATH"] = os.pathsep.join(place for place in env["PATH"].split(os.pathsep) if not os.path.exists(os.path.join(place, "rt")))
    return env


class Room:
    """A clone of the last commit, with an empty HOME and without the kit."""

    def __init__(self, work):
        self.copy, self.times = os.path.join(work, "clone"), []
        self.env = dict(kitless_environment(), HOME=os.path.join(work, "home"), CARGO_NET_OFFLINE="true")
        # The cargo of rustup finds its compilers by HOME.
        self.env.setdefault("RUSTUP_HOME", os.path.expanduser("~/.rustup"))
        os.makedirs(self.env["HOME"])
        run(["git", "clone", "--quiet", ROOT, self.copy])

    def timed(self, command, folder=None):
        """Runs a command line in the clone, or in a folder, and returns the seconds that it takes."""
        began = time.monotonic()
        run(["bash", "-c", command], cwd=folder or self.copy, env=self.env)
        seconds = time.monotonic() - began
        self.times.append("%s: %.0f s" % (command, seconds))
        return seconds


def kitless_commands():
    """Returns the commands of README that need no kit: that of the program, of Rust, of C, of Python, and of the tests."""
    with open(os.path.join(ROOT, "README.md"), encoding="utf-8") as file:
        found = re.findall(r"^    ((?:cargo|make|pip) .*?) +# ", re.search(r"## Get it\n(.*?)\n\nThese", file.read(), re.S)[1], re.M)
    equal(
        [command.split()[:2] for command in found],
        [["cargo", "install"], ["cargo", "add"], ["make", "KIT=none"], ["pip", "install"], ["cargo", "test"]],
    )
    return found


def room(work):
    """Runs the commands of README and the others of `make` in a clone with an empty HOME and without `rt` on the PATH."""
    it, place, user = Room(work), os.path.join(work, "venv"), os.path.join(work, "user")
    program, rust, c, python, tests = kitless_commands()
    seconds = it.timed("make KIT=none")
    it.timed(c)
    tree = os.path.join(it.env["HOME"], ".local")
    equal({name for name in files(tree) if not name.startswith("share/doc/")}, wanted())
    it.timed("make KIT=none dist")
    it.timed(program)
    for folder in (tree, os.path.join(it.env["HOME"], ".cargo")):
        equal(run([os.path.join(folder, "bin", "kodliwe"), SYMBOL]), PATH + "\n")
    run(["cargo", "new", "--quiet", user], env=it.env)
    it.timed(rust.replace("../kodliwe/", os.path.join(it.copy, "")), user)
    with open(os.path.join(user, "src", "main.rs"), "w", encoding="utf-8") as file:
        file.write('fn main() {\n    println!("{:#}", kodliwe::demangle("%s"));\n}\n' % SYMBOL)
    equal(run(["cargo", "run", "--quiet"], cwd=user, env=it.env), PATH + "\n")
    run([sys.executable, "-m", "venv", place], env=it.env)
    it.env["PATH"] = os.path.join(place, "bin") + os.pathsep + it.env["PATH"]
    it.timed(python.replace("pip install", "pip install --quiet --no-index"))
    said = run(["python", "-c", "import kodliwe; print(kodliwe.version())"], env=it.env, cwd=work)
    equal(said, "kodliwe 0.1.0, tested, not proved\n")
    it.timed(tests)
    for words in ("clippy --workspace --all-targets --all-features -- -D warnings", "doc --workspace --no-deps --all-features"):
        it.timed("cargo %s" % words, os.path.join(it.copy, "rust"))
    it.timed("make KIT=none uninstall PREFIX=" + tree)
    equal(files(tree), set())
    told = ", ".join(it.times)
    if seconds > MOST_SECONDS:
        raise AssertionError("make KIT=none takes over %d s: %s" % (MOST_SECONDS, told))
    return told


def choice(work):
    """In a folder with nothing built, and without `rt` on the PATH."""
    copy, env = os.path.join(work, "unbuilt"), kitless_environment()
    run(["git", "clone", "--quiet", ROOT, copy])
    shutil.copy(os.path.join(ROOT, "Makefile"), copy)
    for words in ([], ["install", "PREFIX=" + os.path.join(work, "nowhere")], ["dist"]):
        ran = subprocess.run(["make", *words], cwd=copy, env=env, stdout=subprocess.PIPE, stderr=subprocess.PIPE, encoding="utf-8")
        (line,) = [line for line in ran.stderr.splitlines() if not re.match(r"make\[\d+\]: ", line)]
        equal(ran.stdout, "")
        equal((ran.returncode, all(part in line for part in ("make KIT=none", "Rattle kit", "minute", "hour"))), (2, True))
    equal(os.path.exists(os.path.join(work, "nowhere")), False)
    ran = subprocess.run(["make", "KIT=other"], cwd=copy, env=env, stdout=subprocess.PIPE, stderr=subprocess.PIPE, encoding="utf-8")
    equal((ran.returncode, "KIT is `rattle` or `none`, not `other`" in ran.stderr), (2, True))


def try_library(options, table, work, library):
    """Tries what is installed and packed of one build."""
    library.dist = os.path.join(os.path.dirname(library.folder), "dist")
    kit = "KIT=" + ("rattle" if library.kind == "proved" else "none")

    def step(name, call, *arguments):
        table.step("%s: %s" % (library.kind, name), call, *arguments)

    step("make", lambda: make(kit, "libraries") and None)
    tree = os.path.join(work, "tree")
    said = []

    def installed():
        said.append(make(kit, "install", "PREFIX=" + tree))
        equal({name for name in files(tree) if not name.startswith("share/doc/")}, wanted())

    def settings():
        lines = re.findall(r"^  (export .*)$", said[0], re.M)
        equal(len(lines), 2)
        lines.append('gcc examples/paths.c $(pkg-config --cflags --libs kodliwe) -o "$1" && "$1" ' + SYMBOL)
        equal(run(["bash", "-ec", "\n".join(lines), "bash", os.path.join(work, "paths")], cwd=ROOT), PATH + "\n")

    step("installed", installed)
    step("settings", settings)
    for name, part in Installed(tree, work, library).parts():
        step(name, part)

    def removed():
        make(kit, "uninstall", "PREFIX=" + tree)
        equal(files(tree), set())

    step("removed", removed)
    shutil.rmtree(library.dist, ignore_errors=True)
    step("dist", lambda: make(kit, "dist") and None)

    def tarball():
        place = os.path.join(work, "elsewhere")
        os.makedirs(place)
        run(["tar", "-C", place, "-xzf"] + glob.glob(os.path.join(library.dist, "*.tar.gz")))
        run(["sha256sum", "--check", "--quiet", "SHA256SUMS"], cwd=library.dist)
        moved = Installed(os.path.join(place, os.listdir(place)[0]), work, library)
        run(["sha256sum", "--check", "--quiet", "share/doc/kodliwe/SHA256SUMS"], cwd=moved.tree)
        moved.c(), moved.static(), moved.program(), moved.documents(), moved.said()

    step("tarball", tarball)
    step("package", package, work, library)

    def same():
        first = sums(library.dist)
        shutil.rmtree(library.dist)
        make(kit, "dist")
        equal(sums(library.dist), first)

    step("same, packed again", same)

    def twice():
        copy = os.path.join(work, "copy")
        run(["git", "clone", "--quiet", ROOT, copy])
        run(["make", "--no-print-directory", kit, "dist"], cwd=copy)
        equal(sums(os.path.join(copy, os.path.relpath(library.dist, ROOT))), sums(library.dist))

    if options.twice:
        step("same, from a copy", twice)
    if options.tree:
        step("tree", fresh_tree, work, library)


def main():
    words = argparse.ArgumentParser(description=__doc__.split("\n")[0])
    words.add_argument("--tree", action="store_true", help="install the package in a fresh tree of debootstrap too (as root)")
    words.add_argument("only", nargs="*", metavar="WORD", help="only the parts whose name has one of these words")
    words.add_argument(
        "--twice", action="store_true", help="build from a fresh copy of the last commit too (a quarter of an hour and more)"
    )
    add_libraries(words)
    options = words.parse_args()
    before = run(["git", "status", "--porcelain", "--ignored=no"], cwd=ROOT)
    table = Tally(options.only)
    for kind in [options.library] if options.library else Library.KINDS:
        with tempfile.TemporaryDirectory() as work:
            try_library(options, table, work, Library(kind))
    with tempfile.TemporaryDirectory() as work:
        table.step("choice", choice, work)
        table.step("room", room, work)
    table.step("untracked", lambda: equal(run(["git", "status", "--porcelain", "--ignored=no"], cwd=ROOT), before))
    return table.end()


if __name__ == "__main__":
    sys.exit(main())
