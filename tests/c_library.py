#!/usr/bin/env python3
"""Tries the archive and the shared library, proved and tested, from C and C++.

The proved ones are those that `make` built. This script builds the tested ones by `make KIT=none`. It tries both at once, and prints a
line for each of these:

  archive     defines the calls of the headers and nothing else that C sees, needs only memcpy, memmove, memset and strlen,
              has no writable or thread-local data, and no instruction that locks or calls the system
  answers     tests/c_library/answers.c gives the stored answers of crates/demangle_corpus/stdin in both forms, at thirteen sizes of the
              output, with guard bytes and fenced pages; the answers under the stored limits; and rejects bad texts.
              By gcc and by clang, each linked as usual, with -static, to the shared library, as C++, and with AddressSanitizer
  backtrace   examples/backtrace.c prints its own backtrace with paths in place of symbols, and ends at a symbol that is made
              to be deep
  hostile     the checks of answers.c over costly symbols, under limits of 0 and of 4,096 bytes
  headers     both headers compile as C89 except for `bool`, as later C and as C++, without a warning
  c89         a program of C89 with both headers, linked with the archive and with the shared library
  folded      the two calls that fold, over the stored symbols, against digests of the crate's paths with folded arguments
  texts       the stored symbols with bytes between them as one text, which need not be UTF-8
  exports     the shared library exports the calls of the headers alone, has its name, and needs the C library alone
  version     kodliwe_version says how the library was built, at each size of the output
  beside std  a program of Rust, with its own std, links with the archive
  package     rust/kodliwe-capi: the erased tests of the calls pass, and cargo fmt and clippy report nothing (only the tested library)
  cargo's     the archive that cargo writes, of which `make KIT=none` makes the tested one: it defines functions of the compiler's library
              too, needs bcmp too, and answers.c gives the stored answers with it, linked as usual and with -static
  compare     the two functions of bindings/c/compare.c order bytes as Python does
  by name     rustc_demangle is a function of the shared library, and returns the same as the crate's
  sanitizers  tests/c_library/many.c makes each call for 20,000 texts, most of them damaged symbols, from two threads at once,
              built with AddressSanitizer, UndefinedBehaviorSanitizer and ThreadSanitizer; with --all for 200,000
  stack       the bytes of stack that a call in a signal handler touches, over the stored symbols and hostile ones: at most 96 KiB,
              for the real ones at most 5,632, and 7,168 in the first call of a process
  cost        hostile trees into 4,096 bytes under a limit of 4,096: the instructions of the most costly one

The last line is 'N passed, N failed'. A missing tool is a failure.
"""
import argparse, ctypes, os, re, struct, subprocess, sys, tempfile
from concurrent.futures import ThreadPoolExecutor
from itertools import product
from types import SimpleNamespace

from common import INCLUDE, ROOT, Library, Tally, add_libraries, built, declared_calls, instructions, run, same, tool
from rust_common import digests, is_utf8
from texts import NO_LIMIT, REAL, chained, column, damaged, escaped, hostile, into_name, is_cut_earlier, record, stored, trees

HERE = os.path.join(ROOT, "tests", "c_library")
CALLS = declared_calls()
WANTED = ["memcpy", "memmove", "memset", "strlen"]
# What cargo itself writes.
CARGO_ARCHIVE = os.path.join(ROOT, "out", "none", "cargo", "release", "libkodliwe.a")
# How many texts the sanitizers see.
FEW, ALL = 20_000, 200_000
# The most bytes of stack that a call touches, for a real symbol, and for one in the first call of a process.
MOST_STACK, MOST_STACK_REAL, MOST_STACK_FIRST = 98_304, 5_632, 7_168
# The most instructions that a call takes for a hostile tree, an output and a limit of 4,096 bytes.
MOST_INSTRUCTIONS = 800_000


def check_archive(library):
    symbols = run([tool("nm", "binutils"), library.archive]).decode().split("\n")
    kinds = [line.split()[-2:] for line in symbols if len(line.split()) >= 2 and not line.endswith(":")]
    defined = sorted(name for kind, name in kinds if kind in "TDBRCVWi")
    wanted = sorted({name for kind, name in kinds if kind == "U"} - set(CALLS))
    assert defined == CALLS, "it defines %s" % defined
    # What the compiler of Rust makes calls of may change with it.
    assert wanted == WANTED or library.kind == "tested" and set(wanted) < set(WANTED), "it needs %s" % wanted
    sections = run([tool("readelf"), "-SW", library.archive]).decode()
    for line in sections.split("\n"):
        found = re.search(r"\] (\.[\w.]+)\s+\S+\s+\S+\s+\S+\s+([0-9a-f]+)\s+\S+\s+(\w*)", line)
        if found and int(found[2], 16) > 0 and ("T" in found[3] or "W" in found[3] and not found[1].startswith(".data.rel.ro")):
            raise AssertionError("it has the section %s of %s bytes, flags %s" % found.groups())
    code = run([tool("objdump"), "-d", "--no-show-raw-insn", library.archive]).decode()
    for line in code.split("\n"):
        found = re.search(r"\t(lock|xchg .*\(|syscall|sysenter|int |mfence)|%[fg]s:", line)
        assert not found, "it has the instruction %s" % line.strip()
    return "defines %s; needs %s; no data that is writable or of a thread, no lock, no call of the system" % (
        ", ".join(defined),
        ", ".join(wanted),
    )


def check_cargo_archive(folder, expected):
    """Tries what C.md says of the archive that cargo writes."""
    defined = set(re.findall(r" T (\S+)$", run([tool("nm", "binutils"), built(CARGO_ARCHIVE)]).decode(), re.M))
    assert set(CALLS) < defined, "it lacks %s, or defines nothing else" % sorted(set(CALLS) - defined)
    # What the linker takes of it, for all calls.
    linked = os.path.join(folder, "linked.o")
    run([tool("ld"), "-r", *("-u" + name for name in CALLS), "-o", linked, CARGO_ARCHIVE])
    needed = run([tool("nm"), "--undefined-only", "--format=just-symbols", linked]).decode().split()
    assert "bcmp" in needed and set(needed) <= {*WANTED, "bcmp"}, "it needs %s" % needed
    some = expected[::20]
    for compiler, plus, way in (("gcc", "g++", "usual"), ("clang", "clang++", "static")):
        program = answers_program(folder, SimpleNamespace(archive=CARGO_ARCHIVE), compiler, plus, way)
        compared(run([program], input=b"".join(record(symbol, limit) for symbol, limit, _ in some)), some)
    return "needs %s; %d texts, by gcc and static by clang: no answer differs" % (", ".join(needed), len(some))


def check_exports(library):
    listed = run([tool("nm", "binutils"), "-D", "--defined-only", library.shared]).decode().split("\n")
    same(sorted(line.split()[2].split("@")[0] for line in listed if line and " A " not in line), CALLS)
    said = run([tool("objdump"), "-p", library.shared]).decode()
    same(re.findall(r"SONAME\s+(\S+)", said), ["libkodliwe.so.0"])
    same(re.findall(r"NEEDED\s+(\S+)", said), ["libc.so.6"])
    listed = run([tool("nm"), "-D", "--undefined-only", library.shared]).decode().split("\n")
    needed = sorted(line.split()[1].split("@")[0] for line in listed if " U " in line)
    assert set(needed) <= set(WANTED), "it needs %s" % needed
    return "exports %d calls; needs %s" % (len(CALLS), ", ".join(needed))


def check_version(folder, library):
    call = ctypes.CDLL(shared_library(folder, library)).kodliwe_version
    call.argtypes, call.restype = [ctypes.c_char_p, ctypes.c_size_t], ctypes.c_size_t
    text = library.version.encode()
    for size in (0, 1, 2, len(text), len(text) + 1, len(text) + 9):
        out = ctypes.create_string_buffer(b"\x5a" * 60, 60)
        same(call(out, size), len(text) + 1)
        wanted = text[: size - 1] + b"\0" if size else b""
        same(out.raw, wanted + b"\x5a" * (60 - len(wanted)))
    return library.version


BESIDE = """
unsafe extern "C" {
    fn kodliwe_is_symbol(symbol: *const u8, symbol_len: usize) -> bool;
    fn rustc_demangle(symbol: *const std::ffi::c_char, out: *mut u8, size: usize) -> i32;
}
fn main() {
    let caught = std::panic::catch_unwind(|| panic!("{}", 1 + std::env::args().count()));
    let (symbol, mut out) = (c"_RNvC3foo3bar", vec![0; 9]);
    let told = unsafe { kodliwe_is_symbol(symbol.as_ptr().cast(), 13) };
    let fits = unsafe { rustc_demangle(symbol.as_ptr(), out.as_mut_ptr(), out.len()) };
    println!("{} {told} {fits} {:?}", caught.is_err(), String::from_utf8(out));
}
"""


def check_package():
    with open(os.path.join(ROOT, "crates", "demangle_c", "src", "tests.rt"), encoding="utf-8") as file:
        wanted = file.read().count("#[test]")
    words = ["--manifest-path", os.path.join(ROOT, "rust", "kodliwe-capi", "Cargo.toml")]
    env = dict(os.environ, CARGO_TARGET_DIR=os.path.join(ROOT, "out", "none", "cargo"), CARGO_NET_OFFLINE="true", CARGO_TERM_COLOR="never")
    said = run([tool("cargo", "cargo"), "test", "--locked", *words], env=env, stdin=subprocess.DEVNULL).decode()
    assert wanted > 20 and "%d passed; 0 failed" % wanted in said, said[-2000:]
    run([tool("cargo"), "fmt", "--check", *words], env=env)
    run([tool("cargo"), "clippy", "--locked", "--all-targets", *words, "--no-deps", "--", "-D", "warnings"], env=env)
    return "%d tests" % wanted


def check_beside_std(folder, library):
    """Links a program that panics and unwinds by its own std, which the library has to leave alone."""
    source, program = os.path.join(folder, "beside.rs"), os.path.join(folder, "beside")
    with open(source, "w", encoding="utf-8") as file:
        file.write(BESIDE)
    archive = ["-L", "native=" + library.folder, "-l", "static=kodliwe"]
    run([tool("rustc", "rustc"), "--edition", "2021", source, *archive, "-o", program])
    ran = subprocess.run([program], stdout=subprocess.PIPE, stderr=subprocess.DEVNULL, check=True)
    same(ran.stdout, b'true true 1 Ok("foo::bar\\0")\n')


def compared(out, expected):
    at = wrong = 0
    for symbol, _, answer in expected:
        for form in range(2):
            want, symbol_len = struct.unpack_from("<II", out, at)
            text = out[at + 8 : at + 8 + max(want - 1, 0)]
            at += 8 + len(text)
            wrong_len = answer is not None and answer[2] is not None and symbol_len != answer[2]
            if (want == 0) != (answer is None) or wrong_len or answer is not None and column(text) != answer[form]:
                wrong += 1
                print("    differs: %r gives %r" % (symbol[:80], text[:80]))
    assert at == len(out) and wrong == 0, "%d answers differ" % wrong


def shared_library(folder, library):
    """Returns the shared library, under the name that `-lkodliwe` finds in the folder."""
    for name in ("libkodliwe.so", "libkodliwe.so.0"):
        place = os.path.join(folder, name)
        if not os.path.lexists(place):
            os.symlink(library.shared, place)
    return place


def answers_program(folder, library, compiler, plus, way):
    source = os.path.join(HERE, "answers.c")
    program = os.path.join(folder, "answers")
    includes = ["-I", INCLUDE]
    command = [tool(compiler), "-O1", "-g", "-Wall", "-Wextra", "-Werror", "-std=c11"] + includes + [source]
    if way == "C++":
        command = [tool(plus), "-O1", "-g", "-Wall", "-Wextra", "-Werror", "-x", "c++", "-std=c++17"] + includes + [source, "-x", "none"]
    if way == "AddressSanitizer":
        command += ["-fsanitize=address"]
    if way == "shared":
        shared_library(folder, library)
        command += ["-L", folder, "-Wl,-rpath," + folder, "-lkodliwe"]
    else:
        command += [library.archive]
    if way == "static":
        command += ["-static"]
    run(command + ["-o", program])
    return program


def check_answers(folder, library, compiler, plus, way, expected):
    program = answers_program(folder, library, compiler, plus, way)
    out = run([program], input=b"".join(record(symbol, limit) for symbol, limit, _ in expected))
    compared(out, expected)
    symbols = sum(answer is not None for _, _, answer in expected)
    return "%d texts, %d of them symbols, in both forms at 13 sizes: no answer differs" % (len(expected), symbols)


def check_hostile(folder, library):
    program = answers_program(folder, library, "gcc", "g++", "usual")
    texts = [text.encode() for _, text in hostile()] + trees()
    for limit in (0, 4096):
        run([program], input=b"".join(record(text, limit) for text in texts))
    return "%d texts of up to %d bytes: each answered as the header says" % (len(texts), max(map(len, texts)))


def check_headers(folder):
    source = os.path.join(folder, "headers.c")
    with open(source, "w") as file:
        file.write('#include "kodliwe.h"\n#include "rustc_demangle.h"\nint main(void) { return 0; }\n')
    ways = [
        ["gcc", "-std=c89"],
        ["gcc", "-std=c99"],
        ["gcc", "-std=c17"],
        ["clang", "-std=c89", "-Wno-c99-extensions"],
        ["clang", "-std=c17"],
        ["g++", "-x", "c++", "-std=c++98"],
        ["clang++", "-x", "c++", "-std=c++17"],
    ]
    for compiler, *flags in ways:
        run([tool(compiler), *flags, "-pedantic", "-Wall", "-Wextra", "-Werror", "-I", INCLUDE, "-c", source, "-o", os.devnull])
    return "no warning by %s" % "; ".join(" ".join(way) for way in ways)


def check_compare(folder):
    """Compares the functions of bindings/c/compare.c, which the archive has with local names, with Python's order of bytes."""
    place = os.path.join(folder, "compare.so")
    run([tool("gcc"), "-O1", "-fPIC", "-shared", os.path.join(ROOT, "bindings", "c", "compare.c"), "-o", place])
    loaded, tried = ctypes.CDLL(place), 0
    texts = [bytes(text) for size in range(4) for text in product((0, 1, 127, 128, 255), repeat=size)]
    for one, other in product(texts, repeat=2):
        size = min(len(one), len(other))
        order = (one[:size] > other[:size]) - (one[:size] < other[:size])
        found, differs = loaded.memcmp(one, other, ctypes.c_size_t(size)), loaded.bcmp(one, other, ctypes.c_size_t(size))
        same(((found > 0) - (found < 0), differs != 0), (order, order != 0))
        tried += 1
    return "%d pairs" % tried


OLD_C = """
#include "kodliwe.h"
#include "rustc_demangle.h"

#include <stdio.h>

int main(void) {
    char out[64];
    size_t size = kodliwe_demangle("_RNvC3foo3bar", 13, out, sizeof out, false);
    printf("%lu %s\\n", (unsigned long)size, out);
    printf("%d %s\\n", rustc_demangle("_ZN3foo3barE", out, sizeof out), out);
    return 0;
}
"""


def check_old_c(folder, library):
    source, program = (os.path.join(folder, name) for name in ("old.c", "old"))
    with open(source, "w") as file:
        file.write(OLD_C)
    for compiler in ("gcc", "clang"):
        for end in ([library.archive], [library.shared, "-Wl,-rpath," + os.path.dirname(shared_library(folder, library))]):
            run([tool(compiler), "-std=c89", "-Wall", "-Wextra", "-I", INCLUDE, source, *end, "-o", program])
            same(run([program]), b"9 foo::bar\n1 foo::bar\n")
    return "linked with the archive and the shared library, by gcc and clang"


def check_by_name(folder, library, expected):
    call = ctypes.CDLL(shared_library(folder, library)).rustc_demangle
    call.argtypes, call.restype = [ctypes.c_char_p, ctypes.c_char_p, ctypes.c_size_t], ctypes.c_int
    tried = 0
    for symbol, limit, answer in expected:
        if limit != NO_LIMIT or b"\0" in symbol or answer and (b"\\" in answer[1] or answer[1].startswith(b"#len")):
            continue
        size = len(answer[1]) + 1 if answer else 40
        out = ctypes.create_string_buffer(b"\x5a" * size, size)
        assert call(symbol, out, size) == (1 if answer else 0), symbol
        assert out.raw == (answer[1] + b"\0" if answer else b"\x5a" * size), symbol
        assert call(symbol, out, size - 1) == 0 and call(symbol, None, 0) == 0, symbol
        tried += 1
    return "%d texts by ctypes: no answer differs" % tried


def stays(symbol):
    """Returns whether a text keeps this symbol."""
    return symbol.startswith(b"_RC")


def check_texts(folder, library, expected):
    """
    The stored symbols with other bytes between them as one text, in both forms, at sizes that fit and that do not. Those that begin with
    `_RC` stay.
    """
    call = ctypes.CDLL(shared_library(folder, library)).kodliwe_demangle_text
    call.argtypes = [ctypes.c_char_p, ctypes.c_size_t, ctypes.c_void_p, ctypes.c_size_t, ctypes.c_bool, ctypes.c_size_t]
    call.restype = ctypes.c_size_t
    some = [
        (symbol, answer)
        for symbol, limit, answer in expected
        if limit == NO_LIMIT
        and re.fullmatch(rb"(_ZN|_R)[\w$.]*", symbol)
        and not (answer and any(b"\\" in text or text.startswith(b"#len") for text in answer[:2]))
    ]
    text = b"".join(b"\xff <%s>\0\n" % symbol for symbol, _ in some)
    for form in range(2):
        want = b"".join(b"\xff <%s>\0\n" % (symbol if stays(symbol) or not answer else answer[form]) for symbol, answer in some)
        for room in (len(want) + 40, len(want) + 1, len(want), 1000, 1, 0):
            out = ctypes.create_string_buffer(b"\x5a" * (len(want) + 64), len(want) + 64)
            assert call(text, len(text), out, room, form == 0, NO_LIMIT) == len(want) + 1, "another size is returned"
            kept = min(max(room - 1, 0), len(want))
            end = b"\0" if room else b""
            assert out.raw == want[:kept] + end + b"\x5a" * (len(out) - kept - len(end)), "another text at %d bytes" % room
    return "%d runs in a text of %d bytes, in both forms at 6 sizes: no byte differs" % (len(some), len(text))


def folded_lines(call, symbols, include_hash):
    """Returns a line for each text, as the stored digests count them: OK and the folded path, or ERR."""
    call.argtypes = [ctypes.c_char_p, ctypes.c_size_t, ctypes.c_void_p, ctypes.c_size_t, ctypes.c_bool, ctypes.c_size_t]
    call.restype, room, lines = ctypes.c_size_t, 1 << 21, []
    out = ctypes.create_string_buffer(room)
    for symbol in symbols:
        want = call(symbol, len(symbol), out, room, include_hash, NO_LIMIT)
        assert want <= room, symbol
        lines.append(b"OK\t" + escaped(ctypes.string_at(out, want - 1)) if want else b"ERR")
    return lines


def check_folded(folder, library, symbols):
    """Compares the calls that fold with stored digests of the crate's paths, and the call over texts with that over symbols."""
    with open(os.path.join(HERE, "folded.txt"), encoding="ascii") as file:
        wanted = [line.split() for line in file if not line.startswith("#")]
    loaded = ctypes.CDLL(shared_library(folder, library))
    symbols = [symbol for symbol in symbols if is_utf8(symbol)]
    forms = [folded_lines(loaded.kodliwe_demangle_folded, symbols, include_hash) for include_hash in (True, False)]
    found = [list(row) for row in zip(*map(digests, forms))]
    wrong = [at for at, row in enumerate(found) if row != wanted[at]]
    assert len(found) == len(wanted) and not wrong, "these groups differ: %s" % wrong
    count, cut = 0, 0
    for form, include_hash in zip(forms, (True, False)):
        rows = [row for row in zip(symbols, form) if re.fullmatch(rb"(_ZN|_R)[\w$.]*", row[0])]
        filtered = folded_lines(loaded.kodliwe_demangle_text_folded, [symbol for symbol, _ in rows], include_hash)
        for (symbol, line), text in zip(rows, filtered):
            whole = b"OK\t" + escaped(symbol) if line == b"ERR" or stays(symbol) else line
            if is_cut_earlier(text, whole):
                cut += 1
            else:
                same(text, whole)
        count += len(rows)
    assert count > 6000, "%d symbols as texts" % count
    assert cut == 6, "%d paths are cut earlier in a text" % cut
    return "%d texts in both forms, %d of them also as texts" % (len(symbols), count // 2)


def check_sanitizer(folder, library, sanitizer, symbols, count):
    program = os.path.join(folder, "many")
    run(
        [
            tool("gcc"),
            "-O1",
            "-g",
            "-Wall",
            "-Wextra",
            "-Werror",
            "-fsanitize=" + sanitizer,
            "-fno-sanitize-recover=all",
            "-pthread",
            "-I",
            INCLUDE,
            os.path.join(HERE, "many.c"),
            library.archive,
            "-o",
            program,
        ]
    )
    texts = list(damaged([symbol for symbol in symbols if symbol], count))
    said = run([program], input=b"".join(map(record, texts)), env=dict(os.environ, TSAN_OPTIONS="exitcode=66")).decode().strip()
    assert said == "%d texts" % len(texts), said
    return "%s from two threads at once: 0 faults" % said


def check_backtrace(folder, library, compiler):
    program = os.path.join(folder, "backtrace")
    run(
        [
            tool(compiler),
            "-O1",
            "-g",
            "-Wall",
            "-Wextra",
            "-rdynamic",
            "-I",
            INCLUDE,
            os.path.join(ROOT, "examples", "backtrace.c"),
            library.archive,
            "-o",
            program,
        ]
    )
    ran = subprocess.run([program], stdout=subprocess.PIPE, stderr=subprocess.PIPE)
    said = ran.stderr.decode()
    for path in ("crash::fail", "crash::parser::deep", "<crash::Table<u32>>::fill"):
        assert re.search(r"^ *\d+: %s$" % re.escape(path), said, re.M), "no line for %s in %s" % (path, said)
    assert ran.returncode == -11, "status %d" % ran.returncode
    deep = os.path.join(folder, "deep.c")
    with open(os.path.join(ROOT, "examples", "backtrace.c")) as source, open(deep, "w") as file:
        file.write(source.read().replace("_RNvMC5crashINtB2_5TablemE4fill", "_RNvB_1a"))
    run([tool(compiler), "-O1", "-rdynamic", "-I", INCLUDE, deep, library.archive, "-o", program])
    ran = subprocess.run([program], stdout=subprocess.PIPE, stderr=subprocess.PIPE)
    assert ran.returncode == -11 and b"1: crash::parser::deep" in ran.stderr, "with a deep symbol: status %d" % ran.returncode
    return "the handler printed the three paths, and the program ended by SIGSEGV, also at a symbol that is made to be deep"


def compiled(folder, library, name):
    program = os.path.join(folder, name)
    run([tool("gcc"), "-O1", "-Wall", "-Wextra", "-I", INCLUDE, os.path.join(HERE, name + ".c"), library.archive, "-o", program])
    return program


def check_stack(folder, library, symbols):
    """Counts the bytes of stack that each call touches, by kinds of symbols, and prints a table."""
    program = compiled(folder, library, "in_handler")
    kinds = [("real " + name, symbols[start:end]) for name, start, end in REAL]
    kinds += [
        ("short", [b"_RNvB_1a", b"_RIC7backrefSB9_E"]),
        ("stored", symbols),
        ("trees", trees()),
        ("deep", [chained(1000).encode(), into_name(1000).encode()]),
    ]
    columns = []
    for name, some in kinds:
        said = run([program], input=b"".join(map(record, some))).decode().split()
        columns.append(dict(zip(said[::2], map(int, said[1::2]))))
        allowed = MOST_STACK_REAL if "real" in name else MOST_STACK
        assert max(columns[-1].values()) <= allowed, "%s: %s" % (name, columns[-1])
    # The first call of a process binds functions of the C library. Each of these is one of a process of its own.
    first = {}
    for call in columns[0]:
        for name, start, end in REAL:
            for symbol in symbols[start : end : (end - start) // 12]:
                said = run([program, call], input=record(symbol)).decode().split()
                first[call] = max(first.get(call, 0), int(said[1]))
    assert max(first.values()) <= MOST_STACK_FIRST, "in a first call: %s" % first
    columns.append(first)
    kinds.append(("real, first", []))
    rows = ["    %-28s" % "stack of a call, bytes" + "".join("%12s" % name for name, _ in kinds)]
    rows += ["    %-28s" % call + "".join("%12d" % column[call] for column in columns) for call in columns[0]]
    print("\n".join(rows), flush=True)
    same(sorted(columns[0]), sorted(set(CALLS) - {"rustc_demangle"}))
    return "at most 96 KiB, for the real ones at most 5,632 bytes, and 7,168 in a first call"


def check_cost(folder, library):
    """Counts the instructions of a call, which other work on the machine does not change."""
    program = compiled(folder, library, "cost")
    start = instructions([program], b"")
    most, count = 0, 0
    for text in trees()[::6]:
        many = instructions([program], record(text)) - start
        most, count = max(most, many), count + 1
    assert most <= MOST_INSTRUCTIONS, "%d instructions for a symbol, %d are allowed" % (most, MOST_INSTRUCTIONS)
    return "%d symbols, at most %d instructions" % (count, most)


def try_library(tally, library, expected, texts):
    """Tries one library. The sanitizers see this many texts."""

    def step(name, call, *arguments):
        tally.step("%s: %s" % (library.kind, name), call, *arguments)

    symbols = [symbol for symbol, limit, _ in expected if limit == NO_LIMIT]
    step("made", library.made)
    step("archive", check_archive, library)
    step("exports", check_exports, library)
    if library.kind == "tested":
        step("package", check_package)
    with tempfile.TemporaryDirectory() as folder:
        step("version", check_version, folder, library)
        if library.kind == "tested":
            step("cargo's archive", check_cargo_archive, folder, expected)
        step("beside std", check_beside_std, folder, library)
        for compiler, plus in (("gcc", "g++"), ("clang", "clang++")):
            for way in ("usual", "static", "shared", "C++", "AddressSanitizer"):
                step("answers, %s, %s" % (compiler, way), check_answers, folder, library, compiler, plus, way, expected)
            step("backtrace, " + compiler, check_backtrace, folder, library, compiler)
        step("hostile", check_hostile, folder, library)
        step("folded", check_folded, folder, library, symbols)
        step("texts", check_texts, folder, library, expected)
        step("c89", check_old_c, folder, library)
        step("by name", check_by_name, folder, library, expected)
        for sanitizer in ("address", "undefined", "thread"):
            step("sanitizers, " + sanitizer, check_sanitizer, folder, library, sanitizer, symbols, texts)
        step("stack", check_stack, folder, library, symbols)
        step("cost", check_cost, folder, library)


def main():
    parser = argparse.ArgumentParser(description=__doc__, formatter_class=argparse.RawDescriptionHelpFormatter)
    parser.add_argument("--all", action="store_true", help="give the sanitizers %d texts" % ALL)
    add_libraries(parser)
    parser.add_argument("only", nargs="*", metavar="WORD", help="only the parts whose name has one of these words")
    options = parser.parse_args()
    tally = Tally(options.only)
    expected = list(stored())
    with tempfile.TemporaryDirectory() as folder:
        tally.step("headers", check_headers, folder)
        tally.step("compare", check_compare, folder)
    kinds = [options.library] if options.library else Library.KINDS
    with ThreadPoolExecutor(len(kinds)) as pool:
        list(pool.map(lambda kind: try_library(tally, Library(kind), expected, ALL if options.all else FEW), kinds))
    return tally.end()


if __name__ == "__main__":
    sys.exit(main())
