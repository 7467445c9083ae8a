"""The shared parts of the Rust crate's tests, besides tests/common.py and tests/texts.py: cargo, the corpus, damaged symbols."""

import hashlib
import os
import re
import struct
import subprocess
import sys

from common import CORPUS, KODLIWE, ROOT, RUST, Tally, run, tool
from texts import NO_LIMIT, unescaped

HERE = os.path.join(ROOT, "tests", "crate")
OUT = os.path.join(ROOT, "out", "crate")
DAMAGED, CHUNK = 50_000, 1_000


def check(holds, text):
    """Fails with a text if something does not hold."""
    assert holds, text


def cargo(folder, *words, target=None, status=0, **variables):
    """Runs cargo in a folder, without a network, and returns all that it said."""
    env = dict(os.environ, CARGO_NET_OFFLINE="true", CARGO_TERM_COLOR="never", **variables)
    env["CARGO_TARGET_DIR"] = target or os.path.join(OUT, "target")
    ran = subprocess.run(
        [tool("cargo", "cargo"), *words], cwd=folder, env=env, check=False,
        stdout=subprocess.PIPE, stderr=subprocess.STDOUT, encoding="utf-8",
    )  # fmt: skip
    check((ran.returncode == 0) == (status == 0), f"cargo {' '.join(words)}: status {ran.returncode}\n{ran.stdout[-2500:]}")
    return ran.stdout


def installed():
    """Builds the program kodliwe as a user of cargo does, and returns its file."""
    folder = os.path.join(OUT, "installed")
    cargo(ROOT, "install", "--path", os.path.join(RUST, "kodliwe-cli"), "--root", folder, "--force", "--offline")
    return os.path.join(folder, "bin", "kodliwe")


def add_programs(parser):
    """Adds the option --programs, which `chosen` reads."""
    parser.add_argument("--programs", default=os.environ.get("PROGRAMS", "proved,cargo"), help="the builds to try")


def chosen(names):
    """Returns the builds of the program kodliwe with these names, or with names and files."""
    for name in names.split(","):
        name, _, path = name.partition("=")
        yield name, os.path.abspath(path) if path else KODLIWE if name == "proved" else installed()


def package(name, manifest):
    """Writes a new package with this manifest, and returns its folder."""
    folder = os.path.join(OUT, name)
    os.makedirs(folder, exist_ok=True)
    with open(os.path.join(folder, "Cargo.toml"), "w", encoding="utf-8") as file:
        file.write(f'[package]\nname = "{name}"\nversion = "0.0.0"\nedition = "2024"\n\n')
        file.write(manifest + "\n[workspace]\n")
    return folder


def erase(target, tool=os.path.join(ROOT, "packaging", "crate", "erase.py")):
    """Makes the crate again."""
    run([sys.executable, tool, ROOT, target])


def answers_program(rust, target=None):
    """Builds the program answers.rs over a workspace, and returns its path."""
    folder = package(
        "answers",
        f'[[bin]]\nname = "answers"\npath = "{HERE}/answers.rs"\n\n' f'[dependencies]\nkodliwe = {{ path = "{rust}/kodliwe" }}\n',
    )
    cargo(folder, "build", "--release", target=target)
    return os.path.join(target or os.path.join(OUT, "target"), "release", "answers")


def rows():
    """Yields the corpus rows: kind, symbol, limit and the stored columns."""
    with open(CORPUS, "rb") as file:
        lines = file.read().split(b"\n")
    for line in lines:
        fields = line.split(b"\t")
        if fields[0] == b"\\limit":
            yield "limit", unescaped(fields[1]), int(fields[2]), fields[3:5]
        elif fields[0] == b"\\pieces":
            yield "pieces", unescaped(fields[1]), NO_LIMIT, fields[2:4]
        elif len(fields) == 5:
            yield "answer", unescaped(fields[0]), NO_LIMIT, fields[1:5]


def fields_of(output):
    """Returns the fields that `answers records` wrote."""
    fields, at = [], 0
    while at < len(output):
        (size,) = struct.unpack_from("<I", output, at)
        fields.append(output[at + 4 : at + 4 + size])
        at += 4 + size
    return fields


def is_utf8(text):
    try:
        text.decode()
    except UnicodeDecodeError:
        return False
    return True


def damaged_symbols():
    """Returns the damaged symbols. A generator without the machine's randomness makes the same ones everywhere."""
    symbols = [
        symbol for kind, symbol, _, columns in rows() if kind == "answer" and columns[0] == b"OK" and symbol.isascii() and len(symbol) < 400
    ]
    symbols = [symbol for symbol in symbols if not re.search(rb"[^!-~]", symbol)]
    state = 1

    def number(below):
        nonlocal state
        state = (state * 6364136223846793005 + 1442695040888963407) % 2**64
        return (state >> 33) % below

    signs = b"0123456789abcdefghijklmnopqrstuvwxyzABCDEFGHIJKLMNOPQRSTUVWXYZ_$."
    damaged = []
    for _ in range(DAMAGED):
        text = bytearray(symbols[number(len(symbols))])
        for _ in range(1 + number(3)):
            at = 2 + number(max(1, len(text) - 2))
            change = number(4)
            if change == 0:
                text[at : at + 1] = bytes([signs[number(len(signs))]])
            elif change == 1:
                text[at:at] = bytes([signs[number(len(signs))]])
            elif change == 2:
                del text[at : at + 1]
            else:
                other = symbols[number(len(symbols))]
                start = number(len(other))
                text[at:at] = other[start : start + 1 + number(8)]
        damaged.append(bytes(text))
    return damaged


def digests(lines):
    """Returns a digest for each thousand lines."""
    return [hashlib.sha256(b"\n".join(lines[at : at + CHUNK])).hexdigest()[:16] for at in range(0, len(lines), CHUNK)]


def steps(checks, arguments):
    """Runs checks, or those that are named, prints a line for each, and returns the status."""
    tally = Tally(arguments)
    for name, call in checks:
        tally.step(name, call)
    return tally.end()
