#!/usr/bin/env python3
"""Measures the calls to which no limit is given, over texts whose time is linear only by the limits that hold then.

It prints a Markdown table of seconds of processor time: of the program kodliwe, of the call of a text for C, of the module for Python and
of that of the page, in node. A cell has three: plain, with hashes, and with folded arguments. A result that is longer than a string of
JavaScript may be has no time there. The program and the library are those that `make` built.
"""
import os, resource, subprocess, sys

from measuring import KODLIWE, ROOT, need_programs
from common import Library, run, tool
from hostile_texts import DEAREST, FAMILIES, lines, nested

# The bytes of a text of lines, and those of the impl path in a symbol that is alone.
SIZE, LENGTHS = 1_000_000, (1_000, 10_000, 30_000, 1_000_000)
# Plain, with hashes, and with folded arguments: the program's words, and the two flags of the calls.
FORMS = [([], "False, False"), (["--hash"], "True, False"), (["--fold"], "False, True")]
C = """
import ctypes, mmap, sys, time
text, (include_hash, folds) = sys.stdin.buffer.read(), (%s)
call = getattr(ctypes.CDLL(sys.argv[1]), "kodliwe_demangle_text" + "_folded" * folds)
size = 1000 * (len(text) + 1)
number, memory = ctypes.c_size_t, ctypes.c_void_p
call.argtypes, call.restype = [ctypes.c_char_p, number, memory, number, ctypes.c_bool, number], number
out = (ctypes.c_char * size).from_buffer(mmap.mmap(-1, size))
began = time.process_time()
written = call(text, len(text), out, size, include_hash, ctypes.c_size_t(-1).value)
print(time.process_time() - began)
assert 0 < written <= size
"""
PYTHON = """
import sys, time, kodliwe
text, (include_hash, folds) = sys.stdin.buffer.read(), (%s)
kodliwe.demangle("_RC1a")
began = time.process_time()
kodliwe.demangle_text(text, hash=include_hash, fold=folds)
print(time.process_time() - began)
"""
PAGE = """
const fs = require("node:fs"), kodliwe = require("%s/web/kodliwe.js"), [hash, fold] = [%s];
kodliwe.unpack(require("%s/web/module.js")).then(kodliwe.load).then((it) => {
  const text = fs.readFileSync(0, "latin1"), began = process.cpuUsage();
  it.demangleText(text, { hash, fold });
  const { user, system } = process.cpuUsage(began);
  console.log((user + system) / 1e6);
});
"""


def texts():
    """Yields the texts, with their names."""
    yield "A, 500 lines of 2,029 bytes", FAMILIES["A"](500 * 2029)
    for count in LENGTHS:
        symbol = nested("MIC0%sEC0" % ("h" * count), 18)
        yield "B, {:,} bytes".format(len(symbol)), symbol + "\n"
    for name, symbol in [("B, 1,102 bytes", nested("MIC0%sEC0" % ("h" * 1000), 18)), *DEAREST.items()]:
        yield name + ", in lines", lines(symbol + ".%06d", SIZE // (len(symbol) + 8))


def program(text, words, _):
    """Returns what the program takes, from its start to its end."""
    before = resource.getrusage(resource.RUSAGE_CHILDREN)
    subprocess.run([KODLIWE, *words], input=text, stdout=subprocess.DEVNULL, check=True)
    after = resource.getrusage(resource.RUSAGE_CHILDREN)
    return after.ru_utime + after.ru_stime - before.ru_utime - before.ru_stime


def c_call(text, _, flags):
    return float(run([sys.executable, "-c", C % flags, Library("proved").shared], input=text))


def python(text, _, flags):
    env = dict(os.environ, KODLIWE_LIB=Library("proved").shared, PYTHONPATH=os.path.join(ROOT, "bindings", "python"))
    return float(run([sys.executable, "-c", PYTHON % flags], input=text, env=dict(env, PYTHONDONTWRITEBYTECODE="1")))


def page(text, _, flags):
    words = [tool("node", "nodejs"), "--no-warnings"]
    # What newer releases have without a flag, they may refuse as one.
    flag = "--experimental-wasm-memory64"
    words += [flag] * (subprocess.run([*words, flag, "-e", "0"], stderr=subprocess.DEVNULL).returncode == 0)
    ran = subprocess.run([*words, "-e", PAGE % (ROOT, flags.lower(), ROOT)], input=text, stdout=subprocess.PIPE, stderr=subprocess.PIPE)
    if b"Invalid string length" in ran.stderr:
        return None
    assert ran.returncode == 0, ran.stderr.decode()
    return float(ran.stdout)


def main():
    need_programs()
    callers = [("kodliwe", program), ("the call for C", c_call), ("Python", python), ("the page", page)]
    print("| seconds, plain, with hashes, folded | " + " | ".join(name for name, _ in callers) + " |")
    print("| --- |" + " ---: |" * len(callers))
    for name, text in texts():
        cells = []
        for _, call in callers:
            took = [call(text.encode("ascii"), *form) for form in FORMS]
            cells.append(", ".join("-" if seconds is None else "%.2f" % seconds for seconds in took))
        print("| " + " | ".join([name, *cells]) + " |", flush=True)


if __name__ == "__main__":
    main()
