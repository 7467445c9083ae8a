"""The texts that the tests and the measurements use: costly symbols, the stored corpus, and lines of a log."""
import hashlib
import itertools
import random
import re
import struct

from common import CORPUS

DIGITS = "0123456789abcdefghijklmnopqrstuvwxyzABCDEFGHIJKLMNOPQRSTUVWXYZ"
MANY = 1_000_000
NO_LIMIT = 2**64 - 1
# The lines of the corpus that have symbols of real libraries and programs.
REAL = [("legacy", 0, 500), ("v0", 800, 1700)]
SCHEMES = {"all": "_ZN|_R", "legacy": "_ZN", "v0": "_R"}
FORMS = [
    "  {n:>4}: 0x{a:012x} - {s}\n             at /src/lib.rs:{n}:17\n",
    "{a:016x} t {s}\n",
    "warning: {n} samples in {s} (12.5%)\n",
    "{s}\n",
    "no symbol on this line, only a few words and numbers {n}\n",
]
# Texts that are not symbols, by their error.
REFUSED = [
    b"",
    b"_",
    b"_R",
    b"_ZN",
    b"_ZNE\xff",
    b"\xff\xfe",
    b"_ZN3fo\xc3E",
    b"_RNvC3foo3b\xe4r",
    b"_ZN3foo",
    b"_ZN3foo3barE ",
    b"_ZN3foo\0E",
    b"_ZN%dfooE" % 10**30,
    b"_RNvC%da3foo" % 10**30,
    b"_RNvC3foo%da" % 10**30,
    b"_RB%s_" % (b"z" * 40),
    b"_RNvC" + b"9" * 100000,
    b"_ZN" + b"9" * 100000 + b"E",
    "ä_ZN3fooE".encode(),
    b"_ZN3f\x80oE",
]


def doubling(k):
    """Returns k nested tuples, each of which has its first element twice, the second time by a back reference."""
    references = "".join("B%s_E" % DIGITS[d] for d in range(k + 2, 2, -1))
    return "_RMC0" + "T" * k + "p" + references


def chained(count):
    """Returns 490 nested references, the last to an i8 by a back reference, that many times."""
    return "_RIC2aa" + ("R" * 490 + "B3_") * count + "E"


def into_name(count):
    """Returns a name that reads as 100,000 nested references, and that many back references into it."""
    return "_RIC100000" + "R" * 100_000 + "B7_" * count + "E"


def hostile():
    """Yields symbols that are made to be costly, each with a name."""
    for k in (6, 12, 17, 18, 30, 58):
        yield "doubling, %d tuples" % k, doubling(k)
    for count in (1, 1_000):
        yield "490 `R` and a back reference, {:,} x".format(count), chained(count)
    for count in (1, 1_000):
        yield "back reference into a name of 10^5 `R`, {:,} x".format(count), into_name(count)
    for tag in "TSRPOA":
        yield "`_RMC0` and 10^6 `%s`" % tag, "_RMC0" + tag * MANY
    yield "legacy, 10^6 elements", "_ZN" + "1a" * MANY + "E"
    for count in (10, 11):
        yield "`_RMC0FG`, %d `Z`, `_Eu`" % count, "_RMC0FG" + "Z" * count + "_Eu"
    yield "10^6 times `_ZN1aE `", "_ZN1aE " * MANY


def trees():
    """Returns hostile v0 symbols whose text is large and which are small."""
    found = [doubling(k) for k in range(6, 59)]
    found += ["_RMC0FG" + "Z" * k + "_Eu" for k in range(8, 12)]
    return [text.encode() for text in found] + [chained(1).encode()]


def symbols(scheme):
    """Yields the symbols that a line can hold, of those that the corpus has from libraries and programs, and its generated legacy ones."""
    with open(CORPUS, encoding="utf-8") as file:
        for line in itertools.islice(file, 1700):
            for field in line.rstrip("\n").split("\t"):
                if re.fullmatch(r"(%s)[!-~]+" % SCHEMES[scheme], field) and "\\" not in field:
                    yield field
                    break


def made_lines(repeat, scheme):
    """Yields the lines of a log that has each symbol that many times."""
    found = list(symbols(scheme))
    for turn in range(repeat):
        for n, symbol in enumerate(found):
            yield FORMS[(n + turn) % len(FORMS)].format(n=n, a=0x55D0C0DE0000 + 64 * n, s=symbol)


def unescaped(text):
    """Returns the bytes of a column of the corpus."""
    return re.sub(rb"\\(.)", lambda m: {b"n": b"\n", b"t": b"\t", b"r": b"\r", b"0": b"\0"}.get(m[1], m[1]), text)


def escaped(text):
    """Returns a text with the escapes of a column of the corpus."""
    for raw, shown in ((b"\\", b"\\\\"), (b"\n", b"\\n"), (b"\t", b"\\t"), (b"\r", b"\\r"), (b"\0", b"\\0")):
        text = text.replace(raw, shown)
    return text


def column(text):
    """Returns a text as a column of the corpus has it."""
    if len(text) > 2000:
        return b"#len=%d sha256=%s" % (len(text), hashlib.sha256(text).hexdigest().encode())
    return escaped(text)


def stored():
    """Yields the stored symbols with their limits. Each has the two columns of its answer and the length without ThinLTO's suffix.

    The answer is None if the text is not a symbol, and the length is None if it is not stored.
    """
    with open(CORPUS, "rb") as file:
        lines = file.read().split(b"\n")
    for line in lines:
        fields = line.split(b"\t")
        if fields[0] == b"\\limit":
            # The column of a text that is not a symbol has the text itself.
            symbol, refused = unescaped(fields[1]), fields[3] == fields[1] == fields[4]
            yield symbol, int(fields[2]), None if refused else (fields[3], fields[4], None)
        elif len(fields) == 5 and fields[0] != b"\\pieces":
            ended = len(unescaped(fields[0] if fields[2] == b"=" else fields[2]))
            yield unescaped(fields[0]), NO_LIMIT, (fields[3], fields[4], ended) if fields[1] == b"OK" else None
    for text in REFUSED:
        yield text, NO_LIMIT, None


def record(symbol, limit=NO_LIMIT):
    """Returns a symbol as the programs of tests/c_library and tests/crate read it."""
    return struct.pack("<IQ", len(symbol), limit) + symbol


def is_cut_earlier(path, whole):
    """Returns whether a path is the start of another one, then the marker of a limit, and then the end of the other one."""
    start, marker, end = path.rpartition(b"{size limit reached}")
    return bool(marker) and len(start) < len(whole) and whole.startswith(start) and whole.endswith(end)


def damaged(texts, count):
    """Yields that many texts, most of them stored symbols with a few changes. They are the same each time."""
    dice = random.Random(20251123)
    for _ in range(count):
        text = bytearray(dice.choice(texts))
        for _ in range(dice.choice((0, 1, 1, 2, 5))):
            at, other = dice.randrange(len(text) + 1), dice.choice(texts)
            change = dice.randrange(5)
            if change == 0:
                del text[at : at + dice.randrange(1, 9)]
            elif change == 1:
                text[at:at] = bytes([dice.randrange(256)])
            elif change == 2:
                text[at : at + 1] = bytes([dice.choice(b"_ZNRBCEKLIMXYTSpaz0159$.@-")])
            elif change == 3:
                text[at:] = other[dice.randrange(len(other) + 1) :]
            else:
                text[at:at] = b" " + other
        yield bytes(text[:4000])
