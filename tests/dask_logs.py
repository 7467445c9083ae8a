#!/usr/bin/env python3
"""Tests examples/dask_logs.py with a scheduler and workers of its own, on the loopback address.

    /usr/bin/python3 tests/dask_logs.py

It needs Dask (Debian: python3-distributed), and what `make` builds: the library for the workers, and the program whose
output the example's is compared with. The last line is 'N passed, N failed'.
"""
import glob
import os
import random
import re
import shutil
import signal
import subprocess
import sys
import tempfile
import time
import unittest

from common import KODLIWE, ROOT, SHARED, built

EXAMPLE = os.path.join(ROOT, "examples", "dask_logs.py")
MODULE = os.path.join(ROOT, "bindings", "python")
LIMIT = 60  # seconds that one step may take
SYMBOLS = [
    b"_ZN3foo17h05af221e174051e9E",
    b"_RNvNtCs1234_5crash6parser4deep",
    b"_RNvC3foo3bar.llvm.0AB",
    b"_ZN4core3ptr43drop_in_place$LT$alloc..string..String$GT$17h0123456789abcdefE",
    b"_ZN9wikipedia7article6formatEv",
]


def make_log(size):
    """Returns lines with and without symbols: empty ones, some with CR, some not UTF-8, some whose first bytes matter, and a long one."""
    chance, lines, written = random.Random(1), [b"x" * 50000 + SYMBOLS[0] + b"y" * 50000], 100000
    while written < size:
        lines.append(
            chance.choice(
                [
                    b"",
                    b"\xff\xfe broken \x00",
                    b"%4d: 0x55d0c0de - " % len(lines) + chance.choice(SYMBOLS),
                    b"main;" + b";".join(chance.choices(SYMBOLS, k=chance.randrange(9))) + b" 12\r",
                    b"tag v1.0_RC0 released",
                    b"_" + chance.choice(SYMBOLS) + b" begins with the underscore of macOS",
                ]
            )
        )
        written += len(lines[-1]) + 1
    chance.shuffle(lines)
    return b"\n".join(lines)


def environment(**variables):
    """Returns the environment of a process that uses the Python module, with these variables."""
    return {**os.environ, "KODLIWE_LIB": built(SHARED), "PYTHONPATH": MODULE, "PYTHONDONTWRITEBYTECODE": "1", **variables}


def end(process, sign=signal.SIGTERM):
    """Ends a process by a signal, or by SIGKILL if it does not end in time."""
    process.send_signal(sign)
    try:
        process.wait(LIMIT)
    except subprocess.TimeoutExpired:
        process.kill()
        process.wait()


class DaskLogs(unittest.TestCase):
    @classmethod
    def setUpClass(cls):
        cls.folder = tempfile.mkdtemp()
        cls.addClassCleanup(shutil.rmtree, cls.folder, ignore_errors=True)
        cls.address = cls.start_scheduler()
        for _ in range(2):
            cls.start_worker(cls.address)
        texts = {
            "long": make_log(3 << 20),
            "short": b"one line, _RNvC3foo3bar",
            "empty": b"",
            "ends": b"a\n_RNvC3foo3bar\n",
        }
        for name, text in texts.items():
            with open(os.path.join(cls.folder, name), "wb") as file:
                file.write(text)
        cls.logs = [os.path.join(cls.folder, name) for name in texts]
        inputs = [word for log in cls.logs for word in ("-i", log)]
        cls.expected = {
            keeps_hash: subprocess.run(
                [built(KODLIWE)] + ["--hash"] * keeps_hash + inputs, check=True, capture_output=True, timeout=LIMIT
            ).stdout
            for keeps_hash in (False, True)
        }

    @classmethod
    def start(cls, words, ready, **variables):
        """Starts a process of Dask. Returns it and what it prints when it is ready."""
        log = open(os.path.join(cls.folder, "%d.log" % time.monotonic_ns()), "w+")
        cls.addClassCleanup(log.close)
        command = [sys.executable, "-m", "distributed.cli.dask_" + words[0], "--host", "127.0.0.1", "--no-dashboard"]
        process = subprocess.Popen(command + words[1:], stdout=log, stderr=log, cwd=cls.folder, env=environment(**variables))
        cls.addClassCleanup(end, process)
        until = time.monotonic() + LIMIT
        while time.monotonic() < until and process.poll() is None:
            with open(log.name) as file:
                found = re.search(ready, file.read())
            if found:
                return process, found[found.re.groups]
            time.sleep(0.05)
        with open(log.name) as file:
            raise AssertionError("%s is not ready: %s" % (words[0], file.read()))

    @classmethod
    def start_scheduler(cls):
        """Starts a scheduler, and returns its address."""
        return cls.start(["scheduler", "--port", "0"], r"Scheduler at:\s+(tcp://127\.0\.0\.1:\d+)")[1]

    @classmethod
    def start_worker(cls, address, **variables):
        """Starts a worker, and returns its process."""
        words = ["worker", address, "--nthreads", "1", "--no-nanny", "--local-directory", cls.folder]
        return cls.start(words, r"Registered to:", **variables)[0]

    def command(self, out, *words, address=None):
        return [sys.executable, EXAMPLE, "--scheduler", address or self.address, *words, out] + self.logs

    def run_example(self, out, *words, **given):
        return subprocess.run(self.command(out, *words, **given), capture_output=True, text=True, timeout=LIMIT, env=environment())

    def joined(self, out):
        """Returns the files of a folder, joined in the order of their names. No unfinished file may be left."""
        self.assertEqual([name for name in os.listdir(out) if name.startswith(".")], [".plan"])
        parts = []
        for name in sorted(glob.glob(out + "/*")):
            with open(name, "rb") as file:
                parts.append(file.read())
        return b"".join(parts)

    def test_output_is_that_of_one_run(self):
        out = os.path.join(self.folder, "whole")
        done = self.run_example(out, "--block", "48KiB")
        self.assertEqual(done.returncode, 0, done.stderr)
        self.assertGreater(len(glob.glob(out + "/*")), 50)
        self.assertTrue(self.joined(out) == self.expected[False])

    def test_lost_worker(self):
        out = os.path.join(self.folder, "lost")
        lost = self.start_worker(self.address)
        with subprocess.Popen(self.command(out, "--block", "4KiB"), stderr=subprocess.PIPE, text=True, env=environment()) as run:
            until = time.monotonic() + LIMIT
            while len(glob.glob(out + "/*")) < 30 and time.monotonic() < until and run.poll() is None:
                time.sleep(0.005)
            end(lost, signal.SIGKILL)
            made = len(glob.glob(out + "/*"))
            errors = run.communicate(timeout=LIMIT)[1]
        self.assertEqual(run.returncode, 0, errors)
        self.assertTrue(30 <= made < len(glob.glob(out + "/*")), "the worker was lost too late: %d" % made)
        self.assertTrue(self.joined(out) == self.expected[False])

    def test_resume(self):
        out = os.path.join(self.folder, "resumed")
        words = ["--hash", "--block", "256KiB"]
        self.assertEqual(self.run_example(out, *words).returncode, 0)
        first, *others = sorted(glob.glob(out + "/*"))
        os.remove(first)
        before = [os.stat(name).st_ino for name in others]
        done = self.run_example(out, *words)
        self.assertEqual((done.returncode, "--resume" in done.stderr), (1, True), done.stderr)
        done = self.run_example(out, "--resume", "--block", "256KiB")
        self.assertIn("another --block or --hash", done.stderr)
        done = self.run_example(out, "--resume", *words)
        self.assertEqual((done.returncode, done.stderr[:9]), (0, "1 blocks,"), done.stderr)
        self.assertEqual([os.stat(name).st_ino for name in others], before)
        self.assertTrue(self.joined(out) == self.expected[True])

    def test_folder_of_others(self):
        out = os.path.join(self.folder, "others")
        os.mkdir(out)
        with open(os.path.join(out, "kept"), "w") as file:
            file.write("kept")
        done = self.run_example(out, "--resume")
        self.assertIn("did not write", done.stderr)
        self.assertEqual(os.listdir(out), ["kept"])

    def test_worker_without_the_library(self):
        address = self.start_scheduler()
        out = os.path.join(self.folder, "none")
        done = self.run_example(out, "--wait", "0.2", address=address)
        self.assertNotEqual(done.returncode, 0, "there is no worker")
        self.start_worker(address, KODLIWE_LIB=os.path.join(self.folder, "nothing"))
        done = self.run_example(out, "--resume", address=address)
        self.assertNotEqual(done.returncode, 0)
        self.assertIn("kodliwe finds no libkodliwe.so", done.stderr)
        self.assertEqual(glob.glob(out + "/*"), [])

    def test_workers_of_this_machine(self):
        out = os.path.join(self.folder, "local")
        words = [word for word in self.command(out, "--block", "1MiB") if word not in ("--scheduler", self.address)]
        done = subprocess.run(words, capture_output=True, text=True, timeout=LIMIT, env=environment())
        self.assertEqual(done.returncode, 0, done.stderr)
        self.assertTrue(self.joined(out) == self.expected[False])


def main():
    try:
        import distributed  # noqa: F401
    except ImportError:
        print("no Dask for this Python: the Debian package python3-distributed has it")
        print("0 passed, 1 failed")
        return 1
    result = unittest.TextTestRunner(verbosity=2).run(unittest.defaultTestLoader.loadTestsFromTestCase(DaskLogs))
    failed = len(result.failures) + len(result.errors)
    print("%d passed, %d failed" % (max(result.testsRun - failed, 0), failed))
    return 1 if failed or not result.testsRun else 0


if __name__ == "__main__":
    sys.exit(main())
