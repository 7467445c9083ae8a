#!/usr/bin/env python3
"""Finds the least stack with which each demangler of this machine prints a symbol: the least `ulimit -s`, in steps of 4 KB.

"flat" is the real v0 symbols that demangle_corpus stores. "deep" has 490 nested references and a back reference. "nested" has 60
nested tuples, which need more frames than the first stack has. The start of a stack is random, so a size counts only if each of
several runs succeeded with it.
"""
import argparse, subprocess

from measuring import CORPUS, FILTER, further, need_programs, others


def texts():
    with open(CORPUS, encoding="utf-8") as file:
        lines = file.read().split("\n")
    flat = "".join(line.split("\t")[0] + "\n" for line in lines[800:1700])
    # The reference points to the `a` after the path `C0`.
    return {"flat": flat, "deep": "_RMC0T" + "a" + "R" * 490 + "B3_" + "E\n", "nested": "_RMC0" + "T" * 60 + "u" + "E" * 60 + "\n"}


def suffices(words, text, size, runs):
    """Whether each run with a stack of that many KB succeeds and writes the same as a run with a large stack."""

    def run(kilobytes):
        limited = ["sh", "-c", 'ulimit -s %d && exec "$@"' % kilobytes, "sh"] + words
        return subprocess.run(limited, input=text.encode(), stdout=subprocess.PIPE, stderr=subprocess.DEVNULL)

    wanted = run(8192)
    if wanted.returncode != 0:
        return False
    return all((ran.returncode, ran.stdout) == (0, wanted.stdout) for ran in (run(size) for _ in range(runs)))


def least(words, text, runs):
    for size in range(4, 8192, 4):
        if suffices(words, text, size, 1) and suffices(words, text, size, runs):
            return "%d KB" % size
    return "over 8 MB"


def main():
    parser = argparse.ArgumentParser(description=__doc__, formatter_class=argparse.RawDescriptionHelpFormatter)
    parser.add_argument("--runs", type=int, default=20, help="how many runs have to succeed")
    parser.add_argument("--also", type=further, action="append", default=[], metavar="NAME=COMMAND", help="a further program")
    options = parser.parse_args()
    need_programs()
    programs = [("demangle_filter", [FILTER])] + list(others()) + options.also
    print("| program | %s |" % " | ".join(texts()))
    print("| --- |" + " ---: |" * len(texts()))
    for name, words in programs:
        print("| %s | %s |" % (name, " | ".join(least(words, text, options.runs) for text in texts().values())), flush=True)


if __name__ == "__main__":
    main()
