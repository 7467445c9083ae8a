#!/usr/bin/env python3
"""Counts what texts that are made to be costly cost, call by call, and compares it with the published crate.

usage: hostile.py [--rust FOLDER] [--programs NAMES] [--archives NAMES] [--seed N] [--minutes M] [STEP..]

It counts instructions by valgrind, so a busy machine does not matter, and several steps run at once. The texts are those of
tests/hostile_texts.py: families that grow with a number, symbols whose cost only a limit of work could bound, and symbols by the
grammar. The calls are these:

  rust     try_demangle, Display, demangle_text, demangle_slice and BytesFilter, plain and folded, of the Rust crate
  c        the calls of the archive that read a symbol or a text, as `make` builds it (proved) and as `make KIT=none` does (tested)
  program  kodliwe, plain and with --fold, over its standard input, as `make` builds it (proved) and as cargo does; with --limit 0
           an argument whose path has 2^18 parts; and symbols that are short writes, which it takes PIECES_TIMES of BytesFilter for
  linear   kodliwe, also with --hash, and the archive's calls of texts, plain and folded, with no limit, over texts whose time and output
           are linear only by the limits that hold then: for each byte at most LINEAR_RATE instructions and OUTPUT bytes, for a double
           LINEAR_GROWTH times the instructions
  copied   demangle_slice, BytesFilter, the archive's calls of texts and kodliwe, plain and folded, over symbols of which most is copied: at
           most 1 / COPIED_TIMES of the instructions of the published crate, which prints the same
  page     the module of the page, in node. There is no count of its instructions, so this is processor time, of a text and of one of
           four times its size
  memory   VmHWM of each kodliwe over all of the texts: at most 8 MB, and twice the longest candidate of a symbol. And over a text at
           which its memo grows to the most: at most GROWN beyond that over an empty text
  printed first
           BytesFilter over real symbols that come once: at most a part of what demangle_text takes, which validates each first (FIRST)
  printed in vain
           BytesFilter over runs that it prints before it is known that these are no symbols, and calls that validate each run first; and
           four runs of which more would be printed without a rule of fuel (WITHIN)

A text fails for a call
- if it takes over TIMES the instructions of the published crate, and over RATE for each byte of its input and output;
- if it takes over TIMES the instructions of the published crate, and is of a family whose lines are no symbols by their last bytes;
- if it is of a family, and its double takes over GROWTH as much for each byte.
The published crate has no streams in Debian's release. So its figure is try_demangle and `{}` for each candidate of the text.

A text of UNBOUNDED has no such bounds. It may take a stated multiple of what the published crate takes for the same symbol.

A run that is printed in vain fails if it takes over ALONE, BETWEEN or ALIKE times what validating it first takes. That is the cost of
demangle_text, folded or not as the call, and for a C call that of kodliwe_path_len of the same archive. For a filter or a C call it is
also what this call takes beyond the other one for a text with runs of the same lengths that are no symbols by their fourth byte.
BytesFilter remembers equal runs, so it also reads runs that end with different numbers. After a run in vain it prints the next one only
if enough symbols came between, so it also reads texts with few and with many cheap symbols between.

These runs are those of hostile_texts.VAIN, real symbols that are cut off, and what a search finds (tests/hostile_search.py). A run that
is a symbol for the published crate is left out, such as a real symbol that is cut off within its suffix. But the calls of BytesFilter
also read a symbol whose print gives up, and the searches over them judge symbols too. The seed of the search and the number of its
generations are fixed, so it finds the same each time. --seed and --minutes make another one, of 5 minutes by default.

A search of the same kind looks for the symbol that costs most for each byte if no limit is given: at most DEAREST_RATE instructions.

--rust names another crate than that of this checkout. --programs, or PROGRAMS in the environment, names some builds of the program,
or other files: --programs proved,cargo=PATH. --archives names those of the archive in the same way. `make` builds the proved ones.
The last line is 'N passed, N failed'. A missing tool is a failure.
"""
import argparse
import functools
import glob
import json
import os
import re
import struct
import subprocess
import sys
import tempfile
import threading
import time
from concurrent import futures

import hostile_search
import hostile_texts
import rust_common
from common import INCLUDE, ROOT, RUST, Library, Tally, built, instructions, run, tool

DEBIAN = "/usr/share/cargo/registry"
# The most instructions, in those of the published crate, or for each byte of the input and the output.
TIMES, RATE = 3, 400
# The most that a byte of a double costs, in that of a byte of its half.
GROWTH = 1.3
# The most instructions and bytes of output for each byte of a text of LINEAR, if no limit is given, and the most that its double costs.
LINEAR_RATE, OUTPUT, LINEAR_GROWTH = 60_000, 1_000, 2.2
# The symbols that BytesFilter prints first, by their scheme and lengths, and the most that it takes for them, in what demangle_text takes.
# A filter also looks a symbol up, which is a good part of what a legacy symbol takes.
FIRST = {
    "BytesFilter": [("v0", 64, 384, 0.92), ("legacy", 64, 384, 1.13)],
    "BytesFilter folded": [("v0", 64, 384, 0.92), ("v0", 385, 768, 0.92)],
}
# The most that the program takes for symbols that are short writes, in what BytesFilter takes.
PIECES_TIMES = 1.6
# How many times the instructions of the published crate are those of a call that copies, at least.
COPIED_TIMES = 10
# The bytes of a text of a family. Its double is the second one.
SIZE = 16_384
# The symbols by the grammar, and how many of them are one text.
MADE, TOGETHER = 600, 20
# The call of the published crate that a call is compared with.
ASKED = {"try_demangle", "kodliwe_is_symbol", "kodliwe_symbol_len", "kodliwe_path_len"}
CALLS = ["try_demangle", "Display", "demangle_text", "demangle_slice", "BytesFilter", "BytesFilter folded"]
C_CALLS = [
    "kodliwe_is_symbol",
    "kodliwe_symbol_len",
    "kodliwe_path_len",
    "kodliwe_demangle",
    "kodliwe_demangle_limited",
    "kodliwe_demangle_part",
    "kodliwe_print_part",
    "kodliwe_demangle_folded",
    "kodliwe_demangle_text",
    "kodliwe_demangle_text_folded",
]
# The calls that copy the texts of references.
COPYING_CALLS = ["demangle_slice", "BytesFilter", "BytesFilter folded"]
COPYING_C_CALLS = ["kodliwe_demangle_text", "kodliwe_demangle_text_folded"]
# The calls of texts, with the limit that says that none is given.
LINEAR_C_CALLS = ["kodliwe_demangle_text, no limit", "kodliwe_demangle_text_folded, no limit"]
# The calls that read runs which are no symbols, by the Rust crate and by the archive. BytesFilter prints these first.
VAIN_CALLS, VAIN_C_CALL = ["demangle_slice", "BytesFilter", "BytesFilter folded"], "kodliwe_demangle_text"
# The most that a byte of a text of four times the size costs the page, in processor time.
PAGE_GROWTH = 2.5
# The most memory of the program, in kilobytes, without a run, and the bytes of the longest run.
MEMORY, LONGEST = 8192, 4_000_000
# The most kilobytes of a memo while it grows: its entries, its buffer, and the one before, which is copied. And 1,024 for more of the
# code and the stack than an empty text touches. Equal runs differ by up to 300.
GROWN = (4_500_000 + 1_024_000 + 512_000) // 1024 + 1024
# How many steps run at once, and how many measurements of one step.
AT_ONCE = 4
# The most that a run which is printed in vain may cost, in what validating it first costs: alone, MANY times with a cheap run between each
# two or fewer times with cheap symbols between, and MANY times without any.
ALONE, BETWEEN, ALIKE = 3, 1.5, 1.3
MANY = 500
# The bytes of a cheap run for each byte of the run before it.
CHEAP = 8
# How many cheap symbols are between each two runs, the most of them in a text, and the most runs then.
SYMBOLS_BETWEEN, MOST_SYMBOLS, FEWER = (2, 8, 32, 128), 4_000, 200
# The searches: the most bytes of a run, the generations, and whether symbols cost nothing and the archives read the dearest runs too.
# BytesFilter prints no longer runs first, or than 768 if it folds arguments. The other calls validate each run first, so that a search over
# them shows if one does not.
SEARCHES = {"demangle_slice": (384, 20, True), "BytesFilter": (400, 60, False), "BytesFilter folded": (800, 30, False)}
SEED = 1
# The searches for runs that are dear to calls without a limit: the most bytes of a run, and the generations. And the most instructions
# that a byte of such a run may take.
LINEAR_SEARCHES = {call: (200, 10) for call in LINEAR_C_CALLS}
DEAREST_RATE = 90_000
# A v0 run, and the number at the end of a run.
RUN, NUMBER = re.compile(rb"_R[0-9A-Za-z_.$]*"), re.compile(rb"[0-9]{0,6}$")
# How many climbs of a search have their dearest run measured MANY times.
DEAREST = 5
# Where callgrind writes: in memory, if there is such a folder.
DUMPS = "/dev/shm" if os.path.isdir("/dev/shm") else None
GIVEN = argparse.Namespace()


def once(call):
    """Returns a function that makes this call once for each of its arguments, also if several threads ask for it."""
    kept, lock = functools.lru_cache(maxsize=None)(call), threading.RLock()

    @functools.wraps(call)
    def asked(*arguments):
        with lock:
            return kept(*arguments)

    return asked


class Text:
    """A text with its bounds: the times of the published crate, the index of its half, and whether its rate does not count."""

    def __init__(self, name, text, times=None, half=None, is_refused=False):
        self.name, self.bytes, self.times, self.half, self.is_refused = name, text.encode("ascii"), times, half, is_refused


def all_texts():
    """Returns the texts, in the order in which they are measured."""
    texts = []
    for name, family in hostile_texts.FAMILIES.items():
        is_refused = name in hostile_texts.REFUSED
        texts.append(Text(name, family(SIZE), is_refused=is_refused))
        texts.append(Text(name + ", double", family(2 * SIZE), half=len(texts) - 1, is_refused=is_refused))
    for name, (times, symbol) in hostile_texts.UNBOUNDED.items():
        texts.append(Text(name, symbol() + "\n", times=times))
    symbols = list(hostile_texts.made(MADE))
    for at in range(0, MADE, TOGETHER):
        texts.append(Text("symbols from %d on" % at, "\n".join(symbols[at : at + TOGETHER]) + "\n"))
    return texts


TEXTS = all_texts()
COPIED = [text().encode("ascii") for text in hostile_texts.COPIED.values()]
# Those that the program reads.
NAMED = [text for text in TEXTS if not text.name.startswith("symbols from")]


def measured(program, call, texts=None):
    """Returns for each text, by default all of TEXTS, the instructions of `measured` in a driver, and the bytes of the output."""
    texts = [text.bytes for text in TEXTS] if texts is None else texts
    records = b"".join(struct.pack("<I", len(text)) + text for text in texts)
    with tempfile.TemporaryDirectory(dir=DUMPS) as folder:
        words = [tool("valgrind", "valgrind"), "--tool=callgrind", "--toggle-collect=measured", "--dump-after=measured", "--dump-line=no"]
        said = run([*words, "--callgrind-out-file=%s/out" % folder, program, call], input=records)
        sizes = [int(line) for line in said.split()]
        counts = [total_of("%s/out.%d" % (folder, number)) for number in range(1, len(texts) + 1)]
    assert len(sizes) == len(texts) and all(counts), "%s: %d of %d texts" % (call, len(sizes), len(texts))
    return list(zip(counts, sizes))


def total_of(path):
    """Returns the instructions that a file of callgrind has."""
    with open(path, encoding="utf-8") as file:
        return int(re.search(r"^(?:summary|totals): (\d+)", file.read(), re.M)[1])


def judged(call, ours, crates):
    """Fails with each text that costs too much. Returns the greatest figures, which may be those of different texts."""
    wrong, most_rate, most_times, most_growth = [], 0, 0, 0
    most_output = max(size / len(text.bytes) for text, (_, size) in zip(TEXTS, ours))
    rates = [count / (len(text.bytes) + size) for text, (count, size) in zip(TEXTS, ours)]
    for at, (text, (count, _), (crate, _)) in enumerate(zip(TEXTS, ours, crates)):
        times = count / crate
        said = "%s: %.2f times the crate, %.0f a byte" % (text.name, times, rates[at])
        if text.times:
            wrong += [said + ", may be %g times" % text.times] * (times > text.times)
            continue
        wrong += [said] * (times > TIMES and (rates[at] > RATE or text.is_refused))
        most_rate, most_times = max(most_rate, rates[at]), max(most_times, times)
        if text.half is not None:
            growth = rates[at] / rates[text.half]
            most_growth = max(most_growth, growth)
            wrong += ["%s: a byte of it costs %.2f times one of its half" % (text.name, growth)] * (growth > GROWTH)
    assert not wrong, "%s, %d texts:\n  %s" % (call, len(wrong), "\n  ".join(wrong))
    told = "at most %.0f a byte, %.1f times the crate, %.2f times the half, and %.0f bytes of output a byte"
    return told % (most_rate, most_times, most_growth, most_output)


@once
def rust_driver():
    """Builds the driver over both crates, and returns its path."""
    published = max(glob.glob(os.path.join(DEBIAN, "rustc-demangle-[0-9]*")), default=None)
    assert published, "no crate of the package librust-rustc-demangle-dev"
    folder = rust_common.package(
        "hostile",
        '[[bin]]\nname = "hostile"\npath = "%s/hostile.rs"\n\n[dependencies]\nkodliwe = { path = "%s/kodliwe", features = ["stream"] }\n'
        'theirs = { package = "rustc-demangle", path = "%s" }\n\n'
        '[profile.release]\nopt-level = 3\nlto = "fat"\ncodegen-units = 1\n' % (rust_common.HERE, GIVEN.rust, published),
    )
    target = os.path.join(rust_common.OUT, "hostile-target")
    rust_common.cargo(folder, "build", "--release", target=target)
    return os.path.join(target, "release", "hostile")


@once
def published(name):
    """Returns what a call of the published crate takes for each text."""
    return measured(rust_driver(), name)


def theirs(call):
    """Returns what the call of the published crate takes that this one is compared with."""
    return published("crate try" if call in ASKED else "crate")


def rust_call(call):
    return judged(call, measured(rust_driver(), call), theirs(call))


def archives():
    """Returns the builds of the archive that are named, and their files, which are none for those of this checkout."""
    for name in GIVEN.archives.split(","):
        name, _, path = name.partition("=")
        yield name, os.path.abspath(path) if path else None


@once
def c_driver(name, path):
    """Builds the driver over an archive, and returns its path."""
    if path is None:
        library = Library(name)
        library.made()
        path = library.archive
    program = os.path.join(rust_common.OUT, "hostile-c-" + name)
    source = os.path.join(ROOT, "tests", "c_library", "hostile.c")
    run([tool("cc", "gcc"), "-O2", "-Wall", "-I", INCLUDE, source, built(path), "-o", program])
    return program


def c_call(call, *archive):
    return judged(call, measured(c_driver(*archive), call), theirs(call))


def program_call(program, *words):
    """Measures the program over each text that has a name of its own, in a process for each, without what its start takes."""
    ours = program_measure([built(program), "--hash", *words])([text.bytes for text in NAMED])
    most = max(size / len(text.bytes) for text, (_, size) in zip(NAMED, ours))
    assert most <= OUTPUT, "%.0f bytes of output a byte" % most
    return judged(" ".join(["kodliwe", *words]), ours, theirs("kodliwe"))


def pieces(program):
    """Compares the program, which holds short pieces before it writes them, with BytesFilter over symbols that are short writes."""
    text = b"_ZN3fooE.a " * 1500
    ((ours, size),) = program_measure([built(program), "--hash"])([text])
    ((filters, filters_size),) = measured(rust_driver(), "BytesFilter", [text])
    assert size == filters_size, "%d bytes of output, and %d of BytesFilter" % (size, filters_size)
    told = "%.2f times what BytesFilter takes" % (ours / filters)
    assert ours <= PIECES_TIMES * filters, told
    return told


@once
def published_copied():
    """Returns what the published crate takes for each text of COPIED."""
    return measured(rust_driver(), "crate", COPIED)


def copied(measure):
    """Judges a call that copies the texts of references by its instructions for the texts of COPIED."""
    found, wrong = [], []
    for name, (count, size), (crate, crates_size) in zip(hostile_texts.COPIED, measure(COPIED), published_copied()):
        assert size == crates_size, "%s: %d bytes of output, %d of the crate's" % (name, size, crates_size)
        found.append("%s takes 1 / %.1f of the crate's" % (name, crate / count))
        wrong += [found[-1]] * (COPIED_TIMES * count > crate)
    assert not wrong, ", ".join(wrong)
    return ", ".join(found)


def copied_program(program, *words):
    return copied(program_measure([built(program), "--hash", *words]))


def copied_rust(call):
    return copied(functools.partial(measured, rust_driver(), call))


def copied_c(call, *archive):
    # The size that these calls return has the zero at the end.
    return copied(lambda texts: [(count, size - 1) for count, size in measured(c_driver(*archive), call, texts)])


def program_measure(command):
    """Returns a function that returns the instructions and the bytes of output of a program for texts, without what its start takes."""
    start = instructions(command, b"")

    def figures(text):
        return instructions(command, text) - start, len(run(command, input=text))

    def measure(texts):
        with futures.ThreadPoolExecutor(AT_ONCE) as pool:
            return list(pool.map(figures, texts))

    return measure


def linear(measure):
    """Judges a call to which no limit is given by its instructions and output for the texts of LINEAR, each with its double."""
    texts = [family(size).encode("ascii") for family in hostile_texts.LINEAR.values() for size in (SIZE // 2, SIZE)]
    found, wrong, most = list(measure(texts)), [], [0, 0, 0]
    for at, name in enumerate(hostile_texts.LINEAR):
        size, (half, _), (count, output) = len(texts[2 * at + 1]), *found[2 * at : 2 * at + 2]
        row = count / size, output / size, count / half
        most = [max(pair) for pair in zip(most, row)]
        if any(value > bound for value, bound in zip(row, (LINEAR_RATE, OUTPUT, LINEAR_GROWTH))):
            wrong.append("%s: %.0f instructions a byte, %.0f bytes of output, %.2f times the half" % (name, *row))
    assert not wrong, "\n  ".join(["%d texts:" % len(wrong), *wrong])
    return "at most %.0f instructions a byte, %.0f bytes of output, %.2f times the half" % tuple(most)


def linear_program(program, *words):
    return linear(program_measure([built(program), *words]))


def linear_c(call, *archive):
    return linear(functools.partial(measured, c_driver(*archive), call))


def argument(program):
    """Measures the program for an argument whose path has 2^18 parts, under a limit of 0. It reads the argument, and prints nothing."""
    symbol, command = hostile_texts.nested("MIC0" + "h" * 1000 + "EC0", 18), [built(program), "--limit", "0"]
    ours = instructions([*command, symbol], b"") - instructions([*command, "_RC1a"], b"")
    ((crate, _),) = measured(rust_driver(), "crate try", [symbol.encode("ascii")])
    assert ours <= TIMES * crate, "%.2f times what the published crate takes to validate it" % (ours / crate)
    return "%.2f times what the published crate takes to validate it" % (ours / crate)


def page_times(texts):
    """Returns the processor time of the page's module for a byte of each text, plain and folded."""
    words = [tool("node", "nodejs"), "--no-warnings"]
    # What newer releases have without a flag, they may refuse as one.
    flag = "--experimental-wasm-memory64"
    words += [flag] * (subprocess.run([*words, flag, "-e", "0"], stderr=subprocess.DEVNULL).returncode == 0)
    said = run([*words, os.path.join(ROOT, "web", "tests", "cost.mjs")], input=json.dumps(texts).encode())
    return [[cost / len(text) for cost in costs] for text, costs in zip(texts, json.loads(said))]


def page():
    """Compares each family with a text of four times its size. A text that seems too slow is tried again, since time varies."""
    families, most = {**hostile_texts.FAMILIES, **hostile_texts.LINEAR}, 0
    left = list(families)
    for _ in range(3):
        texts = [families[name](size) for name in left for size in (SIZE, 4 * SIZE)]
        times = page_times(texts)
        growths = [max(b / a for a, b in zip(*times[at : at + 2])) for at in range(0, len(times), 2)]
        most = max([most, *(growth for growth in growths if growth <= PAGE_GROWTH)])
        left = [name for name, growth in zip(left, growths) if growth > PAGE_GROWTH]
        if not left:
            return "a byte of a text of four times the size costs at most %.2f times as much" % most
    raise AssertionError("a byte of a larger text costs over %g times as much: %s" % (PAGE_GROWTH, ", ".join(left)))


def high_water_mark(program, text, *words):
    """Returns the kilobytes that the program had at most, after it wrote all that it could of a text."""
    command = [built(program), "--hash", *words]
    with subprocess.Popen(command, stdin=subprocess.PIPE, stdout=subprocess.PIPE) as child:
        seen = threading.Event()

        def read():
            tail = b""
            while piece := os.read(child.stdout.fileno(), 1 << 16):
                tail = (tail + piece)[-100:]
                if tail.endswith(b"\nend "):
                    seen.set()

        reader = threading.Thread(target=read)
        reader.start()
        child.stdin.write(text + b"\n_ZN3endE ")
        child.stdin.flush()
        assert seen.wait(60), "the end of the text is not written"
        with open("/proc/%d/status" % child.pid, encoding="utf-8") as file:
            found = int(re.search(r"^VmHWM:\s+(\d+) kB", file.read(), re.M)[1])
        child.stdin.close()
        reader.join()
    assert child.returncode == 0, "status %d" % child.returncode
    return found


def memory(program):
    most = MEMORY + 2 * LONGEST // 1024
    text = b"\n".join(text.bytes for text in TEXTS) + b"\n_R" + b"a" * LONGEST
    found = [high_water_mark(program, text, *words) for words in ([], ["--fold"])]
    assert max(found) <= most, "%s KB, more than %d" % (found, most)
    text = hostile_texts.growing_memory().encode()
    grown = [high_water_mark(program, text, *words) - high_water_mark(program, b"", *words) for words in ([], ["--fold"])]
    assert max(grown) <= GROWN, "%s KB for a memo that grows, more than %d" % (grown, GROWN)
    return "%d KB plain and %d KB folded, at most %d; a memo that grows: %d and %d, at most %d" % (*found, most, *grown, GROWN)


def printed_first(call):
    """Judges a filter by its instructions for real symbols, each of which comes once, in those of demangle_text."""
    symbols = {"v0": hostile_texts.real_symbols(), "legacy": hostile_texts.real_legacy_symbols()}
    told, wrong = [], []
    for scheme, least, longest, most in FIRST[call]:
        chosen = [symbol for symbol in symbols[scheme] if least <= len(symbol) <= longest]
        text = "".join(symbol + "\n" for symbol in chosen).encode("ascii")
        first = "demangle_text" + " folded" * call.endswith(" folded")
        ((ours, _),), ((valid, _),) = measured(rust_driver(), call, [text]), measured(rust_driver(), first, [text])
        told.append("%d %s symbols of %d to %d bytes take %.2f" % (len(chosen), scheme, least, longest, ours / valid))
        wrong += ["%s, may be %.2f" % (told[-1], most)] * (ours > most * valid)
    assert not wrong, ", ".join(wrong)
    return ", ".join(told)


def cheap_run(symbol, _):
    """Returns a cheap run that is no symbol by its fourth byte. By its third byte, it would not be looked up."""
    return ["_RN" + "." * (CHEAP * len(symbol) - 4) + "q"]


def cheap_symbols(count):
    """Returns a function that returns so many cheap symbols. No two are the same."""
    return lambda _, at: ["_RNvC1a1b.%010d" % (at * count + number) for number in range(count)]


def repeated(runs, is_counted, between=lambda *_: [], many=MANY):
    """Returns a text of so many runs, each perhaps with a number at its end, and what is between them."""
    lines = []
    for at in range(many):
        symbol = runs[at % len(runs)]
        lines.append(symbol + hostile_texts.BAD % at * is_counted)
        lines += between(symbol, at)
    return "\n".join(lines) + "\n"


def vain_texts(runs, call):
    """Returns the texts with some runs by their names, and the most that each may cost."""
    texts = {"alone": (ALONE, runs)}
    for is_counted in (False, True)[: 1 + call.startswith("BytesFilter")]:
        counted = "with numbers, " * is_counted
        texts[counted + "cheap ones between"] = BETWEEN, [repeated(runs, is_counted, cheap_run)]
        texts[counted + "many"] = ALIKE, [repeated(runs, is_counted)]
    for count in SYMBOLS_BETWEEN * call.startswith("BytesFilter"):
        text = repeated(runs, True, cheap_symbols(count), min(FEWER, MOST_SYMBOLS // count))
        texts["with numbers, %d cheap symbols between" % count] = BETWEEN, [text]
    return texts


def blank_run(run):
    """Returns a run of the same length, with the same number at its end, that is no symbol by its fourth byte."""
    number = NUMBER.search(run, 4)
    number = number[0] if number and number[0] else b"0"
    return b"_ZNx".ljust(len(run), b"x")[: len(run) - len(number)] + number


def blank(text):
    """Returns the text with blank runs in place of its v0 runs. BytesFilter looks these up too."""
    return RUN.sub(lambda run: blank_run(run[0]), text)


def no_symbols(runs):
    """Returns the runs that are no symbols, as the published crate says."""
    counts = measured(rust_driver(), "crate try", [symbol.encode("ascii") for symbol in runs]) if runs else []
    return [symbol for symbol, (_, symbols) in zip(runs, counts) if symbols == 0]


@once
def vain_runs():
    """Returns the families of runs that are printed in vain."""
    families = {name: no_symbols(runs) for name, runs in hostile_texts.vain_families().items()}
    assert all(families.values()), "symbols: %s" % ", ".join(name for name, runs in families.items() if not runs)
    return families


class Vain:
    """Measures a call, of the Rust crate or of an archive, in what validating first costs."""

    def __init__(self, call, *archive):
        self.call, self.beyond, self.program = call, {}, c_driver(*archive) if archive else rust_driver()
        # The call that only validates these runs.
        self.first = "kodliwe_path_len" if archive else "demangle_text" + " folded" * call.endswith(" folded")

    def more(self, texts):
        """Returns what the call takes for these texts beyond the first one, which is measured once for each blank text."""
        if self.call == "demangle_slice":
            return [0] * len(texts)
        blanks = [blank(text) for text in texts]
        new = list(dict.fromkeys(text for text in blanks if text not in self.beyond))
        if new:
            ours, first = (measured(self.program, call, new) for call in (self.call, self.first))
            self.beyond.update((text, count - valid) for text, (count, _), (valid, _) in zip(new, ours, first))
        return [self.beyond[text] for text in blanks]

    def ratios(self, texts):
        """Returns what each text costs."""
        if not texts:
            return []
        texts = [text.encode("ascii") for text in texts]
        ours, first = (measured(self.program, call, texts) for call in (self.call, self.first))
        return [count / (valid + more) for (count, _), (valid, _), more in zip(ours, first, self.more(texts))]

    def costs(self, families):
        """Returns for each text of each family of runs its name, what it costs, and what it may cost."""
        rows = [(name, kind, most, texts) for name, runs in families.items() for kind, (most, texts) in vain_texts(runs, self.call).items()]
        ratios, costs = iter(self.ratios([text for row in rows for text in row[3]])), []
        for name, kind, most, texts in rows:
            cost, text = max((next(ratios), text) for text in texts)
            costs.append((name + ", %s" % text * (len(texts) > 1), kind, cost, most))
        return costs


def too_dear(costs):
    """Returns a line for each family with a text that costs too much, or nothing."""
    wrong = {}
    for name, kind, cost, most in costs:
        if cost > most:
            wrong.setdefault(name, []).append("%s %.2f, may be %.2f" % (kind, cost, most))
    return "".join("\n  %s: %s" % (name, "; ".join(texts)) for name, texts in wrong.items())


def within():
    """Judges BytesFilter by what it takes for each run of WITHIN after a cheap symbol, in what validating the run takes."""
    (cheap,), runs = cheap_symbols(1)("", 0), [run for _, run in hostile_texts.WITHIN.values()]
    assert no_symbols(runs) == runs, "one is a symbol"
    texts = [(cheap + "\n" + run).encode("ascii") for run in ["", *runs]]
    start, *counts = [count for count, _ in measured(rust_driver(), "BytesFilter", texts)]
    valid = [count for count, _ in measured(rust_driver(), "demangle_text", [run.encode("ascii") for run in runs])]
    costs = [(name, (count - start) / least, most) for (name, (most, _)), count, least in zip(hostile_texts.WITHIN.items(), counts, valid)]
    told = ", ".join("%s take %.2f" % (name, cost) for name, cost, _ in costs)
    assert all(cost <= most for _, cost, most in costs), told
    return told


def vain_families(call, *archive):
    runs = dict(vain_runs())
    if call.startswith("BytesFilter"):
        runs["a symbol whose print gives up"] = [hostile_texts.GIVES_UP]
    costs, most_of = Vain(call, *archive).costs(runs), {}
    for _, kind, cost, _ in costs:
        most_of[kind] = max(cost, most_of.get(kind, 0))
    told = "at most " + ", ".join("%s %.2f" % row for row in most_of.items())
    assert not too_dear(costs), told + too_dear(costs)
    return told


def also_read(call, with_archives):
    """Returns the calls that read the dearest runs, by their names: this one, folded too if it is that of a filter, and perhaps C's."""
    calls = [(call, Vain(call))]
    if call == "BytesFilter":
        calls.append((call + " folded", Vain(call + " folded")))
    return calls + [("%s, %s" % (VAIN_C_CALL, archive[0]), Vain(VAIN_C_CALL, *archive)) for archive in archives() if with_archives]


def searched(most, generations, scores, known):
    """Returns a search after so many generations, or after the time that is given."""
    search = hostile_search.Search(SEED if GIVEN.seed is None else GIVEN.seed, most, scores, known)
    if GIVEN.seed is None and GIVEN.minutes is None:
        for _ in range(generations):
            search.generation()
    else:
        end = time.monotonic() + 60 * (5 if GIVEN.minutes is None else GIVEN.minutes)
        while time.monotonic() < end:
            search.generation()
    return search


def linear_search(call):
    """Searches for runs that cost much for each byte, if no limit is given. Fails if one costs over DEAREST_RATE, in any archive."""
    most, generations = LINEAR_SEARCHES[call]
    chosen = list(archives())

    def rates(archive, runs):
        texts = [run.encode("ascii") for run in runs]
        counts = measured(c_driver(*archive), call, texts) if texts else []
        return [count / len(text) for (count, _), text in zip(counts, texts)]

    search = searched(most, generations, functools.partial(rates, chosen[0]), hostile_texts.linear_runs(most))
    found = search.dearest()[:DEAREST]
    most_of = {archive[0]: max(rates(archive, found)) for archive in chosen}
    told = "%d runs in %d climbs, the dearest is %s; instructions a byte: " % (len(search.tried), search.climbs, found[0])
    told += ", ".join("%.0f %s" % (rate, name) for name, rate in most_of.items())
    assert max(most_of.values()) <= DEAREST_RATE, told
    return told


def vain_search(call, most, generations, with_archives):
    """Searches for runs that cost much alone. Fails if the dearest ones of some climbs cost too much, or do so by other calls."""
    known, vain = [symbol for symbols in vain_runs().values() for symbol in symbols[:3]], Vain(call)

    def scores(runs):
        costs = vain.ratios(runs)
        if not with_archives:
            return costs
        in_vain = set(no_symbols(runs))
        return [cost if symbol in in_vain else 0 for symbol, cost in zip(runs, costs)]

    search = searched(most, generations, scores, known)
    found = search.dearest()[:DEAREST]
    told, wrong = "%d runs in %d climbs, the dearest is %s" % (len(search.tried), search.climbs, found[0]), False
    for name, other in also_read(call, with_archives):
        costs = other.costs({symbol: [symbol] for symbol in found})
        numbers = ", ".join("%s %.2f" % (kind, cost) for symbol, kind, cost, _ in costs if symbol == found[0])
        told += "\n %s: %s%s" % (name, numbers, too_dear(costs))
        wrong = wrong or bool(too_dear(costs))
    assert not wrong, told
    return told


def counted_steps(programs):
    """Yields the steps that count instructions, each with its name, its call and its arguments. The longest ones come first."""
    for call, setting in SEARCHES.items():
        yield "printed in vain, search for %s" % call, vain_search, call, *setting
    for call in LINEAR_SEARCHES:
        yield "linear, search for %s" % call, linear_search, call
    for call in CALLS:
        yield "rust " + call, rust_call, call
    for call in COPYING_CALLS:
        yield "copied, " + call, copied_rust, call
    for archive in archives():
        for call in C_CALLS:
            yield "c %s, %s" % (call, archive[0]), c_call, call, *archive
        for call in LINEAR_C_CALLS:
            yield "c %s, %s" % (call, archive[0]), linear_c, call, *archive
        for call in COPYING_C_CALLS:
            yield "copied, c %s, %s" % (call, archive[0]), copied_c, call, *archive
    for name, program in programs:
        yield "program %s" % name, program_call, program
        yield "program %s, folded" % name, program_call, program, "--fold"
        yield "program %s, linear" % name, linear_program, program
        yield "program %s, linear, folded" % name, linear_program, program, "--fold"
        yield "program %s, linear, with hashes" % name, linear_program, program, "--hash"
        yield "program %s, an argument" % name, argument, program
        yield "program %s, pieces" % name, pieces, program
        yield "copied, program %s" % name, copied_program, program
        yield "copied, program %s, folded" % name, copied_program, program, "--fold"
    for call in FIRST:
        yield "printed first, %s" % call, printed_first, call
    yield "printed in vain, within references", within
    for call in VAIN_CALLS:
        yield "printed in vain, %s" % call, vain_families, call
    for archive in archives():
        yield "printed in vain, %s, %s" % (VAIN_C_CALL, archive[0]), vain_families, VAIN_C_CALL, *archive


def main():
    words = argparse.ArgumentParser(description=__doc__, formatter_class=argparse.RawDescriptionHelpFormatter)
    words.add_argument("--rust", metavar="FOLDER", default=RUST, help="the workspace of the Rust crate")
    rust_common.add_programs(words)
    words.add_argument("--archives", metavar="NAMES", default=",".join(Library.KINDS), help="the builds of the archive")
    words.add_argument("--seed", metavar="N", type=int, help="the seed of other searches")
    words.add_argument("--minutes", metavar="M", type=float, help="how long it searches for each call")
    words.add_argument("only", nargs="*", metavar="STEP", help="run these alone")
    words.parse_args(namespace=GIVEN)
    GIVEN.rust = os.path.abspath(GIVEN.rust)
    os.makedirs(rust_common.OUT, exist_ok=True)
    tally, programs = Tally(GIVEN.only), list(rust_common.chosen(GIVEN.programs))
    with futures.ThreadPoolExecutor(AT_ONCE) as pool:
        for step in counted_steps(programs):
            pool.submit(tally.step, *step)
    # These look at the time and the memory of a process, so no other step runs beside them.
    for name, program in programs:
        tally.step("memory %s" % name, memory, program)
    tally.step("page", page)
    return tally.end()


if __name__ == "__main__":
    sys.exit(main())
