"""Texts that are made to be costly: families that grow with a number, and symbols by the grammar of both schemes.

Only families have names, so that a bound can be stated for each. All are ASCII, and the same each time.
"""
import os
import random
import re

from common import CORPUS, ROOT
from texts import DIGITS


def base62(number, zeros=0):
    """Returns a number of v0, with leading zeros before it."""
    if number == 0 and zeros == 0:
        return "_"
    digits, left = "", max(number - 1, 0)
    while True:
        digits, left = DIGITS[left % 62] + digits, left // 62
        if left == 0:
            return "0" * zeros + digits + "_"


def back(place, zeros=0):
    """Returns a reference to a place, which counts from the end of `_R`."""
    return "B" + base62(place, zeros)


# A suffix that no symbol has, with a number, so that no line is like another. What is before it is read before that is known.
BAD = "$%06d"


def wide(element, many, more, end=BAD):
    """Returns a tuple in a tuple: the inner one has an element many times by references, and the outer one has the inner one."""
    return "_RMC0TT" + element + back(5) * many + "E" + back(4) * more + "E" + end


def doubled(first, levels, end=""):
    """Returns a tuple whose last element has each earlier one twice, by references. The first is repeated 2^levels times."""
    symbol, last = "_RMC0T" + first, 4
    for _ in range(levels):
        here = len(symbol) - 2
        symbol += "T" + back(last) * 2 + "E"
        last = here
    return symbol + "E" + end


def nested(first, levels, end=""):
    """Returns that many tuples in each other around an element. Each has the one inside it again, by a reference."""
    return "_RMC0" + "T" * levels + first + "".join(back(place) + "E" for place in range(levels + 3, 3, -1)) + end


def overlapping(units, zeros, end=BAD):
    """Returns a symbol whose references lead into the name before them, where a tuple begins that has all that follows."""
    symbol = "MC0T"
    for _ in range(units):
        reference = back(len(symbol) + 2)
        symbol += "C3TC%d%s" % (len(reference), reference)
    return "_R" + symbol + "NvC0s" + "0" * zeros + "_0E" + end


def lines(form, count):
    return "".join(form % number + "\n" for number in range(count))


# Each family returns a text of about that many bytes. Its cost is linear in its length today.
FAMILIES = {
    "plain text": lambda n: "at /src/lib.rs:17 x " * (n // 20),
    "underscores": lambda n: "_" * n,
    "_Z": lambda n: "_Z" * (n // 2),
    "_R in a run": lambda n: "_R" * (n // 2),
    "_ZN in a run": lambda n: "_ZN" * (n // 3),
    "short v0 symbols": lambda n: "_RNvC1a1b\n" * (n // 10),
    "short legacy symbols": lambda n: "_ZN1aE\n" * (n // 7),
    "symbols that end too early": lambda n: lines("_RNvC8aaaaaaaa8bbbbbbbb17%016d", n // 42),
    "symbols that come once": lambda n: lines("_RNvNtC8aaaaaaaa8bbbbbbbb9ccc%06d1d", n // 38),
    "symbols that repeat": lambda n: lines("_RNvC8aaaaaaaa8bbbbbbbb9ccc%06d", 50) * (n // 1700),
    "long texts that repeat": lambda n: ("_RMC0T" + "RNvNtC8aaaaaaaa8bbbbbbbb9ccccccccc" * 80 + "E\n") * (n // 2744),
    "long texts of short symbols that repeat": lambda n: ("_RMC0T" + "Rm" * 600 + "E\n") * (n // 1208),
    "numbers with zeros": lambda n: "_RNvC0s" + "0" * n + "_1a",
    "constants with zeros": lambda n: "_RIC0Kj" + "0" * n + "1_E",
    "strings": lambda n: "_RIC0KRe" + "c3a9" * (n // 4) + "_E",
    "strings that are not UTF-8": lambda n: "_RIC0KRe" + "61" * (n // 2) + "ff_E",
    "Punycode": lambda n: "_RNvC1au9bcher_kva\n" * (n // 19),
    "long Punycode": lambda n: "_RNvC0u%d_%s_%s" % (n + 1 + n // 2, "a" * n, "b" * (n // 2)),
    "types with lifetimes": lambda n: "_RMC0T" + "RL_h" * (n // 4) + "E",
    "types": lambda n: "_RMC0T" + "Rh" * (n // 2) + "E",
    "open tuples": lambda n: "_RMC0" + "T" * n,
    "legacy elements": lambda n: "_ZN" + "1a" * (n // 2) + "E",
    "legacy escapes": lambda n: "_ZN%d%sE" % (n // 4 * 4, "$LT$" * (n // 4)),
    "legacy dots": lambda n: "_ZN%d%sE" % (n, "." * n),
    "legacy number": lambda n: "_ZN" + "9" * n + "E",
    "suffix": lambda n: "_RNvC1a1b." + "x" * n,
    "suffixes of ThinLTO": lambda n: "_RNvC1a1b" + ".llvm." * (n // 6) + "A",
    "dots": lambda n: "_RN" + "." * n,
    # The element is skipped, and references make a printer read it again before the end is known.
    "A": lambda n: lines(wide("MIC0" + "h" * 1880 + "EC0", 22, 20), n // 2029),
    "A, 30 bytes longer": lambda n: lines(wide("MIC0" + "h" * 1910 + "EC0", 22, 20), n // 2059),
    "zeros": lambda n: lines(wide("NvC0s" + "0" * 1820 + "_0", 21, 41), n // 2029),
    "hexadecimal zeros": lambda n: lines(wide("MIC0Kj" + "0" * 1860 + "_EC0", 21, 20), n // 2015),
    "generic names": lambda n: lines(wide("MIC0" + "IC0E" * 460 + "EC0", 21, 20), n // 1990),
    "chain": lambda n: lines(wide("Nv" * 20 + "C0" + ("s" + "0" * 85 + "_0") * 20, 21, 41), n // 2040),
    "skipped strings": lambda n: lines(wide("MIC0Ke" + "61" * 930 + "_EC0", 21, 20), n // 2015),
    "skipped constants": lambda n: lines(wide("MIC0" + "Kb0_" * 460 + "EC0", 21, 20), n // 1990),
    "skipped placeholders": lambda n: lines(wide("MIC0" + "Kp" * 930 + "EC0", 21, 20), n // 2010),
    "skipped crates": lambda n: lines(wide("MIC0" + "C0" * 930 + "EC0", 21, 20), n // 2010),
    "folded arguments": lambda n: lines("_RMC0TTIC0" + "Kp" * 930 + "E" + back(5) * 21 + "E" + back(4) * 18 + "E" + BAD, n // 2000),
    "overlaps": lambda n: lines(overlapping(12, 1800), n // 1990),
    "a bad end": lambda n: lines(nested("MIC0" + "h" * 1000 + "EC0", 18, BAD), n // 1110),
}

# The families whose lines are no symbols by their last bytes only. The published crate validates such a line, and prints nothing of it.
REFUSED = ["symbols that end too early", *list(FAMILIES)[list(FAMILIES).index("A") :]]

# Only a limit of work could bound these: each is a symbol, and its references make a printer read a part again and again. The
# requirement says what the library prints for them, so its calls take as long as that takes. Each is short here, since the cost of
# most doubles with a few bytes. Their bound is the published crate's cost, which does the same work, times this.
UNBOUNDED = {
    "tuples in tuples": (2, lambda: nested("p", 10)),
    "B": (3, lambda: nested("MIC0" + "h" * 400 + "EC0", 8)),
    "B, longer": (3, lambda: nested("MIC0" + "h" * 1600 + "EC0", 8)),
    "doubled": (2, lambda: doubled("u", 11)),
    "doubled zeros": (3, lambda: doubled("NvC0s" + "0" * 300 + "_0", 7)),
    "a path in itself": (3, lambda: "_RMC0TNvB3_s" + "0" * 300 + "_0" + "B3_" * 3 + "E"),
    "references to zeros": (3, lambda: "_RMC0TNvC0s" + "0" * 1000 + "_0" + back(4) * 100 + "E"),
    "references to an impl path": (3, lambda: "_RMC0TMIC0" + "h" * 1000 + "EC0" + back(4) * 100 + "E"),
    "references to names": (3, lambda: "_RMC0T" + "Nv" * 240 + "C0" + "0" * 240 + back(4) * 100 + "E"),
    "overlapping references": (3, lambda: overlapping(6, 300, "")),
    "a binder": (2, lambda: "_RMC0FG" + base62(50_000) + "Eu"),
}

# Without a limit of the caller, their time and output are linear all the same. Each family returns a text of about that many bytes.
LINEAR = {
    "one B": lambda n: nested("MIC0" + "h" * n + "EC0", 18) + "\n",
    "B in lines": lambda n: lines(nested("MIC0" + "h" * 1000 + "EC0", 18, ".%06d"), n // 1103),
    "short B in lines": lambda n: lines(nested("MIC0" + "h" * 100 + "EC0", 18, ".%06d"), n // 203),
    "doubled in lines": lambda n: lines(doubled("u", 11, ".%06d"), n // 127),
    # The limit of what is read again cuts it, after it is known that it is a symbol.
    "a short symbol that is cut": lambda n: "_RMC0TTOOOB4_B8_B3_EE\n",
    "binders in lines": lambda n: "_RMC0FG15FTGf_Eu\n" * (n // 17),
    "binders in one line": lambda n: "_RMC0FG15FTGf_Eu " * (n // 17),
}


def two_chains(first, levels, end=""):
    """Returns a tuple with two of `first`, and then with two of each level, which have both of the level before by references."""
    symbol, last = "_RMC0T" + first * 2, (4, 4 + len(first))
    for _ in range(levels):
        here = len(symbol) - 2
        symbol += "T" + back(last[0]) + back(last[1]) + "E"
        there = len(symbol) - 2
        symbol += "T" + back(last[1]) + back(last[0]) + "E"
        last = here, there
    return symbol + "E" + end


# Symbols whose output grows twofold with each reference. The text of most references is copied, so they cost much less than their output.
COPIED = {
    "a chain": lambda: lines(doubled("u", 10, ".%06d"), 10),
    "two chains": lambda: lines(two_chains("u", 10, ".%06d"), 10),
}


# The symbols that cost most for each byte, as searches found (linear_search of tests/hostile.py).
DEAREST = {
    "the dearest of a search": "_RMC0TTTTTTTTTTTTTC0t"
    + "C0" * 20
    + "hhhhC0C0hhhhC0C0hhhht"
    + "h" * 52
    + "EC0Be_EBd_EBc_EBb_EBa_EB9_EB8_EB7_EB6_EBc_EB4_EB3_E",
    "the dearest if folded": "_RMC0TTTTTTTTTTTTT" + "IC0E" * 31 + "EBe_EBd_Bd_Bd_EBc_EBk_Bk_EBa_EEEB9_EB8_EB7_uTEB3_EB5_EB4_E",
}


def referred(part, many, before="IC0"):
    """Returns a run that has a part, references to it, and then an error."""
    return "_R" + before + part + back(len(before)) * many + "0"


# Two crates with long names, which cost little for each byte.
CHEAP = "IC150" + "a" * 150 + "C100" + "b" * 100
# Runs that are no symbols. What is printed of each before that is known, is printed in vain.
VAIN = {
    "a name that is read as a reference": "_RYC5INvC5B2_001aCu9t0a0a0a0a" + "Be_" * 103 + "EE",
    "a string that is read so": "_RYC5INvC5B2_001aKRe6161616161_" + "KBf_" * 77 + "EE",
    "Punycode in Punycode": "_RNvICu9t0a0a0a6aCu9t0a0a0a2aB_EbEEEBO_EE8EEgEpEEE2EEEEEEEBCEEEE",
    "a tuple in itself": "_RYTCu9aaaaaaaaaB0_0" + "E" * 13,
    "references one after the other": "_RYTCu9aaaaaaaaaB1_Bd_Bg_Bj_Bm_Bp_Bs_0E",
    "a path after a path": "_RYTpppEINvC1a1bNvC1a1bB5_BR_CFUKCuEuOY9aaaaaaaaaYBR_",
    "names in Punycode": "_RYT" + "Cu9aaaaaaaaa" * 5 + "0E",
    "references": "_RINvC3foo3barB_" + "R" * 40 + "_E",
    "a string": "_RIC0KRe" + "61" * 60 + "_0E",
    "a binder of many lifetimes": "_RYFGZZ_uEu0E" + "E" * 25,
    "a long name in Punycode": "_RNvC3foou60" + "a" * 60 + "0E",
    "cheap names and a type": referred("u", 25, CHEAP),
    "cheap names and a tuple": referred("TuuuuuuuuE", 20, CHEAP),
    "a disambiguator with zeros": referred("NvCs" + "0" * 120 + "_1a1b", 40),
    "a disambiguator with zeros, alone": referred("Cs" + "0" * 120 + "_1a", 40),
    "nested tuples": referred("T" * 20 + "u" + "E" * 20, 30),
    "references before a type": referred("R" * 60 + "u", 30),
    "a binder": referred("FG_RL0_uEu", 60),
    "a binder of two lifetimes": referred("FG0_RL0_RL1_uEu", 60),
    "binders in binders": referred("FG_" * 20 + "u" + "Eu" * 20, 30),
    "binders one after the other": "_RIC0" + "FG_EL0_" * 40 + "0",
    "lifetimes": "_RIC0FGZ_" + "RL0_u" * 50 + "0",
    "a binder of a trait object": referred("DG_C1aEL0_", 60),
    "a trait object with bindings": referred("DC1ap1buEL_", 60),
    "open trait arguments": referred("DINtC1a1bhEp1cuEL_", 60),
    "a string and references to it": "_RIC0KRe" + "61" * 20 + "_" + "KB3_" * 60 + "0",
    "an error at the start": "_RN" + "0" * 61,
    # The search found these.
    "cheap names and shims": "_R" + CHEAP + "TNSC0s9_1a" + back(len(CHEAP) + 1) * 4 + "E" + back(len(CHEAP)) * 3 + "0",
    "cheap names and ABIs": "_R" + CHEAP + "TFK3a_bEu" + back(len(CHEAP) + 1) * 4 + "E" + back(len(CHEAP)) * 3 + "0",
    "constants and a reference to all": "_RIC0" + "Knb_" * 40 + "B_",
    "ABIs and a reference to all": "_RIC0" + "FK3a_bEu" * 40 + "B_",
    "a binder of many lifetimes in a long run": "_RYFGZZ_uEu0E" + "E" * 371,
    "lifetimes and references to them": "_RIC0FGZ_" + "RL0_u" * 18 + "B0_" * 95,
    "arguments that are read from within a name": "_RYC5INvC5B2_001aCu9t0a0a0a0a" + "Be_" * 245,
    "a binder of many lifetimes in a run of 2,000 bytes": "_RYFGZZ_uEu0E" + "E" * 1987,
    "arguments that are read from within a name, 2,000 bytes": "_RYC5INvC5B2_001aCu9t0a0a0a0a" + "Be_" * 657,
}
# Runs of which a filter without one of the rules of fuel prints more in vain: the most that each costs, and the run. The zeros are read
# again for each reference, and print nothing. The tuple contains the reference to it. Punycode and function types are slow to print.
WITHIN = {
    "bytes within references": (2.2, "_RIC0NvCs" + "0" * 60 + "_1a1b" + back(3) * 95 + "0"),
    "a target that leads to its own reference": (2.6, "_RYTB0_0" + "E" * 250),
    "names in Punycode": (4, VAIN["names in Punycode"]),
    "function types within references": (2.5, VAIN["ABIs and a reference to all"]),
}
# A symbol whose path contains itself, so that its print gives up and is in vain too. The search found it.
GIVES_UP = "_RYB_Cu9bcher_kva." + "l" * 300


def corpus_symbols(first, after):
    """Returns the symbols of some lines of the corpus that are ASCII."""
    with open(CORPUS, "rb") as file:
        symbols = [line.split(b"\t")[0] for line in file.read().split(b"\n")[first:after]]
    return [symbol.decode("ascii") for symbol in symbols if symbol.isascii()]


def real_legacy_symbols():
    """Returns the legacy symbols with a hash of the corpus."""
    return list(dict.fromkeys(symbol for symbol in corpus_symbols(0, 800) if re.fullmatch(r"_ZN\S+17h[0-9a-f]{16}E", symbol)))


def growing_memory():
    """Returns a text at which a memo takes the most memory: its buffer grows for paths of up to 1,000,000 bytes, then its entries until
    there is no more room for them, and then both are used by turns."""

    def entry(number):
        # It comes twice, since only then a symbol gets an entry: of 1,912 bytes, with a path of 1,905.
        return ("_RNvC3foo1900%06d%s\n" % (number, "a" * 1894)) * 2

    def long_path(number, many):
        # An element of 6,000 bytes, which is repeated.
        return "_RMC0TT" + "n" * 1000 + "E" + back(4) * many + "E.%06d\n" % number

    growing = "".join(long_path(many, many) for many in (1, 2, 5, 10, 20, 40, 80, 85, 100, 140, 170))
    filled = "".join(map(entry, range(1100)))
    return growing + filled + "".join(entry(number) + long_path(number, 170) for number in range(1100, 1120))


def real_symbols():
    """Returns the v0 symbols of real programs that the corpus and the measurements have."""
    with open(os.path.join(ROOT, "bench", "symbols.txt"), encoding="ascii") as file:
        symbols = file.read().replace("?", "7").split()
    symbols += corpus_symbols(800, 1700)
    return list(dict.fromkeys(symbol for symbol in symbols if symbol.startswith("_R") and symbol.isascii()))


def vain_families():
    """Returns lists of runs, by their names: those of VAIN, and real symbols that are cut off, some of which still are symbols."""
    symbols = real_symbols()
    families = {name: [run] for name, run in VAIN.items()}
    for size in (64, 128, 256):
        families["real symbols cut off after %d bytes" % size] = [symbol[:size] for symbol in symbols if len(symbol) > size]
    return families


def linear_runs(most):
    """Returns runs of about `most` bytes that cost much for each byte if no limit is given, for a search to begin with."""
    parts = ["h", "C0", "Rh", "Kp", "IC0E"]
    runs = [nested(start + part * (most // 3 // len(part)) + end, 12) for part in parts for start, end in (("T", "E"), ("MIC0", "EC0"))]
    return [run for run in [*runs, doubled("u", 8), overlapping(2, 20, ""), "_RMC0FG15FTGf_Eu"] if len(run) <= most]


class Grammar:
    """Makes v0 symbols by the grammar, with references to places that begin such a unit, or to any place."""

    NAMES = ["0", "1a", "3foo", "2_x", "5_4ever", "2B_", "2Rh", "2C0", "5TB0_E", "u9bcher_kva", "u5_aaaa", "u3_bb", "8RRRRRRRu"]
    LEAVES = ["u", "h", "z", "p", "e", "v", "i", "C1a"]
    HEX = ["", "0", "1", "61", "c3a9", "e28ba9f09f9880", "ff", "22275c0a", "d800", "10ffff", "f"]

    def __init__(self, seed):
        self.dice = random.Random(seed)
        self.left = self.dice.choice([3, 10, 40, 150, 400])
        self.wild = self.dice.choice([0, 0, 10, 60])
        self.places = {"path": [], "type": [], "constant": []}
        self.text = ""

    def put(self, *choices):
        self.text += self.dice.choice(choices)

    def may(self, chance):
        return self.dice.random() < chance

    def symbol(self):
        """Returns a symbol, and sometimes a damaged one."""
        self.path()
        if self.may(0.2):
            self.path()
        return "_R" + self.text + self.dice.choice(["", "", "", ".llvm.1A", ".x", "$1", "E", ".a$_"])

    def number(self):
        self.text += base62(self.dice.choice([0, 0, 1, 2, 11, 63, 70_000]), self.dice.choice([0, 0, 0, 1, 9, 40]))

    def disambiguator(self):
        if self.may(0.3):
            self.text += "s"
            self.number()

    def name(self):
        self.disambiguator()
        self.put(*self.NAMES)

    def begins(self, kind):
        """Begins a unit. Returns false if a reference took its place."""
        self.left -= 1
        known = self.places[kind]
        if self.may(0.2) and (known or self.wild):
            is_wild = not known or self.dice.randrange(100) < self.wild
            self.text += back(
                self.dice.randrange(len(self.text) + 2) if is_wild else self.dice.choice(known), self.dice.choice([0, 0, 0, 30])
            )
            return False
        known.append(len(self.text))
        return True

    def several(self, unit, end="E"):
        for _ in range(self.dice.choice([0, 1, 1, 2, 3])):
            unit()
        self.text += end

    def one_of(self, *units):
        """Makes one of several units, or the first if the symbol is long enough."""
        units[0 if self.left < 0 else self.dice.randrange(len(units))]()

    def path(self):
        if not self.begins("path"):
            return

        def crate():
            self.text += "C"
            self.name()

        def nested_path():
            self.put("Nv", "Nt", "NC", "NS", "Na")
            self.path()
            self.name()

        def inherent():
            self.text += "M"
            self.disambiguator()
            self.path()
            self.type()

        def of_trait():
            self.text += "X"
            self.disambiguator()
            self.path()
            self.type()
            self.path()

        def trait():
            self.text += "Y"
            self.type()
            self.path()

        def generic():
            self.text += "I"
            self.path()
            self.several(self.argument)

        self.one_of(crate, crate, nested_path, nested_path, inherent, of_trait, trait, generic)

    def argument(self):
        kind = self.dice.randrange(6)
        if kind == 0:
            self.text += "L"
            self.number()
        elif kind < 3:
            self.text += "K"
            self.constant()
        else:
            self.type()

    def binder(self):
        if self.may(0.5):
            self.put("G_", "G0_", "G9_", "GZZ_")

    def type(self):
        if not self.begins("type"):
            return

        def leaf():
            self.put(*self.LEAVES)

        def pointer():
            self.put("R", "Q", "P", "O", "S", "RL0_", "QL_", "RL9_")
            self.type()

        def array():
            self.text += "A"
            self.type()
            self.constant()

        def tuple_type():
            self.text += "T"
            self.several(self.type)

        def function():
            self.text += "F"
            self.binder()
            self.put("", "U", "KC", "K3a_b", "UK1_")
            self.several(self.type)
            self.type()

        def dynamic():
            self.text += "D"
            self.binder()
            self.several(self.bound, "EL")
            self.number()

        self.one_of(leaf, leaf, pointer, array, tuple_type, tuple_type, function, dynamic, self.path, self.path)

    def bound(self):
        self.path()
        for _ in range(self.dice.choice([0, 0, 1, 2])):
            self.text += "p"
            self.put(*self.NAMES)
            self.type()

    def constant(self):
        if not self.begins("constant"):
            return

        def placeholder():
            self.text += "p"

        def literal():
            self.put("h", "j", "an", "i", "b", "c", "xn", "e", "Re")
            self.text += "0" * self.dice.choice([0, 0, 1, 16, 32]) + self.dice.choice(self.HEX) * self.dice.choice([1, 1, 2, 9]) + "_"

        def reference():
            self.put("R", "Q")
            self.constant()

        def several():
            self.put("A", "T")
            self.several(self.constant)

        def structure():
            self.text += "V"
            self.path()
            self.put("U", "TE", "SE")

        self.one_of(placeholder, literal, literal, reference, several, structure)


def legacy(seed):
    """Returns a legacy symbol, and sometimes a damaged one."""
    dice = random.Random(seed)
    parts = ["a", "foo", "$LT$", "$GT$", "$u7e$", "$u20$", "..", ".", "_$", "$C$", "$ud800$", "$", "_", "$x$", "h0a"]
    text = "_ZN"
    for _ in range(1 + dice.randrange(6)):
        element = "".join(dice.choice(parts) for _ in range(dice.randrange(5)))
        text += "%s%d%s" % (dice.choice(["", "", "", "0"]), len(element), element)
    return text + dice.choice(["", "17h0123456789abcdef"]) + dice.choice(["E", "E", "E.x", "E.llvm.0", "", "E0"])


def made(count):
    """Yields symbols by the grammar of both schemes, one in six of them a legacy one."""
    for seed in range(count):
        yield legacy(seed) if seed % 6 == 0 else Grammar(seed).symbol()
