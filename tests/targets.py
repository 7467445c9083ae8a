#!/usr/bin/env python3
"""Runs the crate's library and programs for other targets, over the stored corpus.

usage: targets.py [STEP..]

  packages   Debian 12's rustc 1.85, its libraries, cross linkers and qemu are in out/targets
  aarch64, i686, s390x    the crate is built for this target, and returns the stored answers
  aarch64 in C, i686 in C    the same of the library for C

Debian's packages are downloaded by apt and unpacked into out/targets; nothing of the machine
changes. rustc 1.85 is the oldest that the crate names as its `rust-version`. s390x is big-endian,
and i686 has 32 bits: a length of 2^32 + 1 has to be refused there too.
"""

import glob
import os
import subprocess
import sys

import rust_common as common
import c_library
import crate
import texts
from common import INCLUDE, ROOT, RUST, run
from rust_common import OUT, check

PLACE = os.path.join(ROOT, "out", "targets")
TREE = os.path.join(PLACE, "root")
SOURCES = "http://deb.debian.org/debian bookworm main"
KEYS = "/usr/share/keyrings/debian-archive-keyring.gpg"
# The target's name in Rust, its architecture in Debian, its name in gcc, and qemu's program.
TARGETS = {
    "aarch64": ("aarch64-unknown-linux-gnu", "arm64", "aarch64-linux-gnu", "qemu-aarch64"),
    "i686": ("i686-unknown-linux-gnu", "i386", "i686-linux-gnu", "qemu-i386"),
    "s390x": ("s390x-unknown-linux-gnu", "s390x", "s390x-linux-gnu", "qemu-s390x"),
}
COMMON = ["rustc-web", "libstd-rust-web-1.85", "libstd-rust-web-dev", "libllvm19", "libz3-4", "qemu-user"]
# Libraries that unpacked programs need and a machine may not have.
COMMON += ["libcapstone4", "libnuma1", "liburing2", "libbinutils", "libjansson4", "libctf0"]
COMMON += ["libctf-nobfd0", "libgprofng0", "libglib2.0-0", "libgnutls30", "libhogweed6"]
COMMON += ["libnettle8", "libtasn1-6", "libp11-kit0", "libidn2-0", "libunistring2", "libffi8"]
COMMON += ["libpcre2-8-0", "libgmp10", "libisl23", "libmpc3", "libmpfr6", "libedit2", "libbsd0"]
COMMON += ["libmd0", "libxml2", "libtinfo6", "libicu72", "libzstd1", "liblzma5", "zlib1g"]
COMMON += ["binutils-common", "libcc1-0"]


def packages_of(target):
    """Returns the packages that building and running for a target needs."""
    _, debian, gcc, _ = TARGETS[target]
    cross = {"i386": "i386-cross", "arm64": "arm64-cross", "s390x": "s390x-cross"}[debian]
    return [
        f"libstd-rust-web-dev:{debian}",
        f"gcc-12-{gcc}", f"cpp-12-{gcc}", f"gcc-12-{gcc}-base", f"binutils-{gcc}",
        f"libgcc-12-dev-{cross}", f"libgcc-s1-{cross}", f"libc6-{cross}", f"libc6-dev-{cross}",
        f"linux-libc-dev-{cross}",
    ]  # fmt: skip


def apt(command, *words):
    """Runs an apt command with lists of its own, for all the architectures."""
    options = {
        "Dir::State::Lists": os.path.join(PLACE, "lists"),
        "Dir::Cache": os.path.join(PLACE, "cache"),
        "Dir::State::status": os.path.join(PLACE, "status"),
        "Dir::Etc::sourcelist": os.path.join(PLACE, "sources.list"),
        "Dir::Etc::sourceparts": "/dev/null",
        "APT::Architecture": "amd64",
        "APT::Sandbox::User": "root",
        "Acquire::Retries": "3",
    }
    flags = [part for name, value in options.items() for part in ("-o", f"{name}={value}")]
    for name in ("amd64", *(debian for _, debian, _, _ in TARGETS.values())):
        flags += ["-o", f"APT::Architectures::={name}"]
    return run([command, *flags, *words], cwd=os.path.join(PLACE, "debs"))


def check_packages():
    for name in ("lists/partial", "cache/archives/partial", "debs", "root"):
        os.makedirs(os.path.join(PLACE, name), exist_ok=True)
    for name, text in (("status", ""), ("sources.list", f"deb [signed-by={KEYS}] {SOURCES}\n")):
        with open(os.path.join(PLACE, name), "w", encoding="utf-8") as file:
            file.write(text)
    names = COMMON + [name for target in TARGETS for name in packages_of(target)]
    done = os.path.join(PLACE, "done")
    if os.path.exists(done):
        with open(done, encoding="utf-8") as file:
            if file.read().split() == names:
                return f"{len(names)} packages are unpacked already"
    apt("apt-get", "update")
    apt("apt-get", "download", *names)
    debs = sorted(glob.glob(os.path.join(PLACE, "debs", "*.deb")))
    check(len(debs) >= len(names), f"{len(debs)} of {len(names)} packages were downloaded")
    for deb in debs:
        run(["dpkg-deb", "-x", deb, TREE])
    with open(done, "w", encoding="utf-8") as file:
        file.write(" ".join(names))
    return f"{len(debs)} packages are unpacked into {os.path.relpath(TREE, ROOT)}"


def libraries():
    return os.path.join(TREE, "usr", "lib", "x86_64-linux-gnu")


def wrapper(name, text):
    """Writes a shell script that runs an unpacked program with the unpacked libraries."""
    place = os.path.join(PLACE, "bin", name)
    os.makedirs(os.path.dirname(place), exist_ok=True)
    with open(place, "w", encoding="utf-8") as file:
        file.write(f"#!/bin/sh\nexport LD_LIBRARY_PATH={libraries()}\n{text}\n")
    os.chmod(place, 0o755)
    return place


def sysroot_of(target):
    """Makes a folder in which rustc finds the target's library, and returns it."""
    rust = TARGETS[target][0]
    place = os.path.join(PLACE, "sysroot")
    below = os.path.join(place, "lib", "rustlib", rust)
    found = glob.glob(os.path.join(TREE, "usr", "lib", "**", "rustlib", rust), recursive=True)
    check(found, f"no library of {rust} was unpacked")
    os.makedirs(os.path.dirname(below), exist_ok=True)
    if not os.path.lexists(below):
        os.symlink(found[0], below)
    return place


def rustc():
    found = glob.glob(os.path.join(TREE, "usr", "lib", "rust-*", "bin", "rustc"))
    found += glob.glob(os.path.join(TREE, "usr", "bin", "rustc*"))
    check(found, "no rustc was unpacked")
    return wrapper("rustc", f'exec {found[0]} "$@"')


def variable_of(target):
    """Returns the name of the variable in which cargo finds the target's linker, which is a C compiler."""
    return f"CARGO_TARGET_{TARGETS[target][0].upper().replace('-', '_')}_LINKER"


def environment(target):
    """Returns the variables by which cargo builds for a target."""
    rust, _, gcc, _ = TARGETS[target]
    unpacked = os.path.join(TREE, "usr", "bin", f"{gcc}-gcc-12")
    link = f'PATH={TREE}/usr/bin:$PATH exec {unpacked} --sysroot={TREE} -B{TREE}/usr/{gcc}/lib "$@"'
    return {
        "RUSTC": rustc(),
        variable_of(target): wrapper(f"{gcc}-link", link),
        "RUSTFLAGS": f"--sysroot {sysroot_of(target)} -C link-arg=-L{TREE}/usr/{gcc}/lib",
    }


def runner(target):
    """Returns the words that run a program of a target."""
    _, _, gcc, qemu = TARGETS[target]
    program = os.path.join(TREE, "usr", "bin", qemu)
    return [wrapper(qemu, f'exec {program} -L {TREE}/usr/{gcc} "$@"')]


def long_lengths():
    """Returns symbols whose lengths are 2^32 + n or 5 * 2^32 + n.

    On 32 bits a cast or a sum that wraps reads the first as n, and a product that wraps the second.
    """
    return [
        text
        for big in (2**32, 5 * 2**32)
        for text in (
            b"_ZN%da1bE" % (big + 1),
            b"_ZN1a%dbE" % (big + 1),
            b"_RNvC%da1b" % (big + 1),
            b"_RNvC1a%db" % (big + 1),
            b"_RNvC%d_a1b" % (big + 1),
            b"_ZN%dabcE" % (big + 3),
        )
    ]


def check_c_library(target):
    """Returns a check of the library for C on one target."""

    def call():
        env = environment(target)
        place, rust = os.path.join(OUT, "targets"), TARGETS[target][0]
        common.cargo(os.path.join(RUST, "kodliwe-capi"), "build", "--release", "--target", rust, target=place, **env)
        release = os.path.join(place, rust, "release")
        program, source = os.path.join(release, "c_answers"), os.path.join(c_library.HERE, "answers.c")
        words = ["-O1", "-std=c11", "-I", INCLUDE, source, os.path.join(release, "libkodliwe.a"), "-o", program]
        run([env[variable_of(target)], *words])
        expected = list(texts.stored())[::20]
        records = b"".join(texts.record(symbol, limit) for symbol, limit, _ in expected)
        c_library.compared(run([*runner(target), program], input=records), expected)
        return f"{len(expected)} texts, in both forms at 13 sizes and in parts: no answer differs"

    return call


def check_target(target):
    """Returns a check of one target."""

    def call():
        env = environment(target)
        rust = TARGETS[target][0]
        folder = common.package(
            "answers",
            f'[[bin]]\nname = "answers"\npath = "{common.HERE}/answers.rs"\n\n'
            f'[dependencies]\nkodliwe = {{ path = "{RUST}/kodliwe" }}\n',
        )
        place = os.path.join(OUT, "targets")
        for where in (folder, RUST):
            common.cargo(where, "build", "--release", "--target", rust, target=place, **env)
        release = os.path.join(place, rust, "release")
        words = [*runner(target), os.path.join(release, "answers")]
        rows = crate.compare_corpus(words)
        refused = run([*words, "lines"], input=b"\n".join(long_lengths()) + b"\n")
        wanted = b"".join(b"ERR\t%s\t%s\n" % (text, text) for text in long_lengths())
        check(refused == wanted, f"of a length past 2^32: {refused!r}")
        program = [*runner(target), os.path.join(release, "kodliwe")]
        said = run(program, input=b"at _ZN3foo3barE:7\n")
        check(said == b"at foo::bar:7\n", repr(said))
        kind = subprocess.run(["file", "-b", words[-1]], stdout=subprocess.PIPE, check=False).stdout
        return f"{rows} stored rows and 12 lengths past 2^32 ({kind.decode()[:60].strip()})"

    return call


CHECKS = [("packages", check_packages)]
CHECKS += [(target, check_target(target)) for target in TARGETS]
CHECKS += [(target + " in C", check_c_library(target)) for target in ("aarch64", "i686")]

if __name__ == "__main__":
    os.makedirs(OUT, exist_ok=True)
    sys.exit(common.steps(CHECKS, sys.argv[1:]))
