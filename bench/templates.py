#!/usr/bin/env python3
"""Writes the templates of the workloads into bench/: the symbols that crates/demangle_corpus/stdin has of real programs, and hostile ones.

The program demangle_workloads fills each run of `?` and of `~` with hexadecimal digits.
"""
import os
import random
import re

from measuring import ROOT
from texts import REAL, chained, damaged, doubling, symbols

WORDS = "request user cache table index queue worker session token buffer socket packet driver config module kernel".split()
PLAIN = [
    "{t} INFO  {w}_{v}: {n} bytes in {n} ms, _{w}_start={a}\n",
    "{t} DEBUG [{w}] {v}_{w} took {n} us (0x{a})\n",
    "{t} WARN  retry {n} of {w}.{v}: connection reset by peer\n",
]
FRAMES = ["  {n:>4}: 0x{a} - {s}\n             at /src/{w}/{v}.rs:{n}:17\n", "  {n:>4}: {s}\n", "warning: {n} samples in {s} (12.5%)\n"]


def marked(symbol, mark="?"):
    """Returns a symbol with marks in place of eight digits of its hash, or of its first crate's number of 11 digits."""
    if symbol.startswith("_ZN"):
        return re.sub(r"(17h[0-9a-f]{4})[0-9a-f]{8}", lambda m: m[1] + 8 * mark, symbol)
    return re.sub(r"(Cs[0-9a-zA-Z]{2})[0-9a-zA-Z]{8}", lambda m: m[1] + 8 * mark, symbol, count=1)


def plain(dice):
    """Returns a line of a log without a symbol."""
    time = "2026-11-26T%02d:%02d:%02d" % (dice.randrange(24), dice.randrange(60), dice.randrange(60))
    return dice.choice(PLAIN).format(t=time, w=dice.choice(WORDS), v=dice.choice(WORDS), n=dice.randrange(10**5), a="????????")


def frame(dice, symbol):
    """Returns the lines of a log that have a symbol."""
    return dice.choice(FRAMES).format(n=dice.randrange(99), a="0000????????", s=symbol, w=dice.choice(WORDS), v=dice.choice(WORDS))


def log(dice, found):
    """Yields the lines of a log: half of them have no symbol."""
    for _ in range(2_000):
        yield plain(dice) if dice.randrange(2) else frame(dice, dice.choice(found))


def profile(dice, found):
    """Yields the lines of a profile's stacks. A symbol's weight falls with its rank."""
    chosen = [marked(symbol, "~") for symbol in dice.sample(found, 700)]
    weights = [1 / (rank + 3) for rank in range(len(chosen))]
    for _ in range(90):
        yield "app %d/%d cycles:u:\n" % (dice.randrange(10**5), dice.randrange(10**5))
        for symbol in dice.choices(chosen, weights, k=24):
            yield "\t    5581c0de0??? %s+0x%x (/usr/bin/app)\n" % (symbol, dice.randrange(4096))
        yield "\n"


def hostile(dice, found):
    """Yields costly symbols, and damaged ones."""
    for k in range(2, 13):
        yield doubling(k).replace("C0", "Cs????????_0") + "\n"
    for tag in "TSRPOA":
        yield "_RMCs????????_0" + tag * 480 + "u\n" + "_RMCs????????_0" + tag * 4_000 + "\n"
    yield chained(40).replace("C2aa", "Cs????????_2aa") + "\n"
    yield "_ZN" + "1a" * 5_000 + "17h????????????????E\n"
    yield "_ZN" + "9$u7d$$RP$" * 800 + "17h????????????????E\n"
    yield "_ZN3foo17h????????????????E" + ".llvm.0" * 300 + "\n"
    yield "_RNvCs????????_" + "".join("u%dw%s_fsga" % (n + 6, "a" * n) for n in range(90)) + "3foo\n"
    yield "_RNvCs????????_3foou30a1b2c3d4e5f6a7b8c9d0_gagagagagaga\n" * 30
    yield "_RINvCs????????_3foo3bar" + "Kh1_" * 500 + "E\n"
    yield ("_RNvCs????????_3foo" + "3bar" * 60 + "_") * 20 + "\n"
    for text in damaged([symbol.encode() for symbol in found], 700):
        yield text.decode("latin-1").encode("ascii", "replace").decode().replace("\n", " ") + " ????????\n"


def main():
    found = [symbol for scheme, start, end in REAL for symbol in list(symbols(scheme))[: end - start]]
    real = [marked(symbol) for symbol in found]
    for name, make in (("log", log), ("profile", profile), ("hostile", hostile)):
        write(name, make(random.Random(name), found if name == "profile" else real))
    random.Random("symbols").shuffle(real)
    write("symbols", (symbol + "\n" for symbol in real))


def write(name, lines):
    """Writes a template."""
    with open(os.path.join(ROOT, "bench", name + ".txt"), "w", encoding="utf-8") as file:
        file.writelines(lines)


if __name__ == "__main__":
    main()
