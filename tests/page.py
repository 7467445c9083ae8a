#!/usr/bin/env python3
"""Builds the page's module and runs web/test, which compares it with the committed one.

The last line is that of web/test, 'N passed, N failed'.
"""
import os
import subprocess
import sys

from common import ROOT


def main():
    os.makedirs(os.path.join(ROOT, "out", "tests"), exist_ok=True)
    built = subprocess.run([os.path.join(ROOT, "web", "build"), os.path.join(ROOT, "out", "tests", "module.js")], stdin=subprocess.DEVNULL)
    if built.returncode != 0:
        print("0 passed, 1 failed")
        return 1
    return subprocess.run([os.path.join(ROOT, "web", "test"), *sys.argv[1:]], stdin=subprocess.DEVNULL).returncode


if __name__ == "__main__":
    sys.exit(main())
