#!/usr/bin/env python3
"""Compares the corpus's stored answers, which are those of the Rust crate rustc-demangle 0.1.28, with a release of that crate.

It builds a program over the crate outside the repository, and runs it for each symbol of the lines of five columns and of
`\\pieces`. It reports each line that differs. Lines of `\\limit` are omitted, since the crate has one limit. The crate is Debian's
librust-rustc-demangle-dev, 0.1.21, or that of --crate. From line 801 on, the answers come from a crate with two changes
(tests/README.md), so 37 lines differ from 0.1.28. CHANGED has how many differ from each release, and why. The last line is
'N passed, N failed', and those lines count as passed.
"""
import argparse, hashlib, os, re, subprocess, sys, tempfile

from common import CORPUS, Lacking, tool

CRATE = "/usr/share/cargo/registry/rustc-demangle-0.1.21"
# How many lines have a different result in each release. From 0.1.21 to 0.1.28 the crate changed its texts of errors
# (`{invalid syntax}` was `?`) and its limits, and added constants of texts, arrays, tuples and structs. No line of REAL differs in
# either.
CHANGED = {
    "0.1.28": {"columns": 33, "pieces": 4},
    "0.1.21": {"columns": 919, "pieces": 116},
}
REAL = 1700
# Prints, for each text in hexadecimal, whether it is a symbol, its text, and the nonempty pieces of both forms.
PROGRAM = r"""
use std::fmt::{self, Write};
use std::io::BufRead;

struct Pieces(Vec<String>);

impl fmt::Write for Pieces {
    fn write_str(&mut self, piece: &str) -> fmt::Result {
        if !piece.is_empty() {
            self.0.push(piece.to_owned());
        }
        Ok(())
    }
}

fn hex(bytes: &[u8]) -> String {
    bytes.iter().map(|byte| format!("{byte:02x}")).collect()
}

fn joined(pieces: Pieces) -> String {
    let parts: Vec<String> = pieces.0.iter().map(|piece| hex(piece.as_bytes())).collect();
    parts.join(",")
}

fn main() {
    for line in std::io::stdin().lock().lines() {
        let line = line.unwrap();
        let bytes: Vec<u8> = (0..line.len() / 2)
            .map(|at| u8::from_str_radix(&line[2 * at..2 * at + 2], 16).unwrap())
            .collect();
        let text = String::from_utf8(bytes).unwrap();
        let symbol = rustc_demangle::demangle(&text);
        let (mut plain, mut alt) = (Pieces(Vec::new()), Pieces(Vec::new()));
        write!(plain, "{symbol}").unwrap();
        write!(alt, "{symbol:#}").unwrap();
        let is_symbol = rustc_demangle::try_demangle(&text).is_ok();
        println!("{is_symbol} {} {} {}", hex(symbol.as_str().as_bytes()), joined(plain), joined(alt));
    }
}
"""
ESCAPES = {"n": "\n", "t": "\t", "r": "\r", "0": "\0", "\\": "\\"}


def plain_text(column):
    """The text of a column, without its escapes."""
    return re.sub(r"\\(.)", lambda found: ESCAPES[found[1]], column).encode()


def is_text(column, text):
    digest = re.fullmatch(r"#len=(\d+) sha256=([0-9a-f]{64})", column)
    if digest and len(text) > 2000:
        return (int(digest[1]), digest[2]) == (len(text), hashlib.sha256(text).hexdigest())
    return plain_text(column) == text


def build(folder, crate):
    dependency = '{ path = "%s" }' % os.path.abspath(crate)
    os.mkdir(os.path.join(folder, "src"))
    with open(os.path.join(folder, "Cargo.toml"), "w") as file:
        file.write(
            '[package]\nname = "answers"\nversion = "0.1.0"\nedition = "2021"\n\n'
            "[dependencies]\nrustc-demangle = %s\n\n[workspace]\n" % dependency
        )
    with open(os.path.join(folder, "src", "main.rs"), "w") as file:
        file.write(PROGRAM)
    env = dict(os.environ, CARGO_TARGET_DIR=os.path.join(folder, "target"), RUSTFLAGS="--cap-lints=allow")
    subprocess.run([tool("cargo", "cargo"), "build", "--release", "--quiet", "--offline"], cwd=folder, env=env, check=True)
    return os.path.join(folder, "target", "release", "answers")


def asked():
    """The lines that are compared: their number, kind, symbol and expected columns."""
    with open(CORPUS, encoding="utf-8", newline="") as file:
        for number, line in enumerate(file.read().split("\n"), 1):
            columns = line.split("\t")
            if columns[0] == "\\pieces":
                yield number, "pieces", columns[1], columns[2:]
            elif columns[0] != "\\limit" and len(columns) == 5:
                yield number, "columns", columns[0], columns[1:]


def differs(kind, symbol, wanted, answer):
    is_symbol, as_str, plain, alt = answer.split(" ")
    pieces = [[bytes.fromhex(part) for part in form.split(",")] for form in (plain, alt)]
    if kind == "pieces":
        return any(plain_text(column.replace("\\|", "\x1f")) != b"\x1f".join(form) for column, form in zip(wanted, pieces))
    status, kept, *texts = wanted
    if (status == "OK") != (is_symbol == "true") or bytes.fromhex(as_str) != plain_text(symbol if kept == "=" else kept):
        return True
    return any(not is_text(column, b"".join(form)) for column, form in zip(texts, pieces))


def release_of(crate):
    """Returns the release of the crate in a folder."""
    manifest = os.path.join(crate, "Cargo.toml")
    if not os.path.exists(manifest):
        raise Lacking("no crate in %s: the Debian package librust-rustc-demangle-dev has it" % crate)
    with open(manifest) as file:
        return re.search(r'^version = "(.*)"', file.read(), re.M)[1]


def main():
    parser = argparse.ArgumentParser(description=__doc__, formatter_class=argparse.RawDescriptionHelpFormatter)
    parser.add_argument("--crate", default=CRATE, help="the folder of the crate (default %(default)s)")
    parser.add_argument("--all", action="store_true", help="tell each line that differs, and not only ten")
    options = parser.parse_args()
    release = release_of(options.crate)
    lines = list(asked())
    with tempfile.TemporaryDirectory() as folder:
        program = build(folder, options.crate)
        texts = "\n".join(plain_text(symbol).hex() for _, _, symbol, _ in lines) + "\n"
        answers = subprocess.run([program], input=texts, stdout=subprocess.PIPE, encoding="ascii", check=True).stdout.splitlines()
    if len(answers) != len(lines):
        sys.exit("%d answers to %d symbols" % (len(answers), len(lines)))
    found = {"columns": [], "pieces": []}
    for (number, kind, symbol, wanted), answer in zip(lines, answers):
        if differs(kind, symbol, wanted, answer):
            found[kind].append(number)
    failed = 0
    for kind, numbers in found.items():
        known = CHANGED.get(release, {}).get(kind, 0)
        shown = " ".join(map(str, numbers if options.all else numbers[:10]))
        print("%s: %d lines differ from %s, %d are known to: %s" % (kind, len(numbers), release, known, shown))
        failed += abs(len(numbers) - known) + sum(kind == "columns" and number <= REAL for number in numbers)
    print("%d passed, %d failed" % (len(lines) - failed, failed))
    return 1 if failed else 0


if __name__ == "__main__":
    sys.exit(main())
