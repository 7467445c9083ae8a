"""Tests the calls of kodliwe with the library that KODLIWE_LIB names. The expected paths are from the crate rustc-demangle."""

import base64
import doctest
import hashlib
import os
import re
import shutil
import signal
import subprocess
import sys
import tempfile
import threading
import unittest
import unittest.mock
import zipfile
from unittest import mock

HERE = os.path.dirname(os.path.abspath(__file__))
MODULE = os.path.join(HERE, "..", "kodliwe.py")
CORPUS = os.path.join(HERE, "..", "..", "..", "crates", "demangle_corpus", "stdin")
sys.path.insert(0, os.path.dirname(MODULE))

import kodliwe  # noqa: E402

LEGACY = "_ZN3foo17h05af221e174051e9E"
# A symbol whose text doubles with each of 18 tuples, and so exceeds every limit.
TREE = "_RMC0TTTTTTTTTTTTTTTTTTpBk_EBj_EBi_EBh_EBg_EBf_EBe_EBd_EBc_EBb_EBa_EB9_EB8_EB7_EB6_EB5_EB4_EB3_E"


def unescaped(text: bytes) -> bytes:
    return re.sub(rb"\\(.)", lambda m: {b"n": b"\n", b"t": b"\t", b"r": b"\r", b"0": b"\0"}.get(m[1], m[1]), text)


def stored():
    """Returns symbols of the corpus with their paths, with and without the hash, and the texts that are rejected."""
    symbols, refused = [], []
    with open(CORPUS, "rb") as corpus:
        for line in corpus:
            fields = line.rstrip(b"\n").split(b"\t")
            if len(fields) != 5 or fields[0] in (b"\\pieces", b"\\limit"):
                continue
            if fields[1] == b"OK" and not fields[3].startswith(b"#len=") and not fields[4].startswith(b"#len="):
                symbols.append(tuple(unescaped(fields[i]) for i in (0, 3, 4)))
            elif fields[1] == b"ERR":
                refused.append(unescaped(fields[0]))
    return symbols, refused


def run(code, *arguments, given=b"", **environment):
    env = dict(os.environ, **environment)
    return subprocess.run([sys.executable, "-c", code, *arguments], input=given, stdout=subprocess.PIPE, stderr=subprocess.PIPE, env=env)


def setUpModule():
    """Fails once, with the error of `_load`, if there is no library."""
    kodliwe._load()


class Demangle(unittest.TestCase):
    def test_a_symbol_gives_its_path(self):
        self.assertEqual(kodliwe.demangle(LEGACY), "foo")
        self.assertEqual(kodliwe.demangle(LEGACY, hash=True), "foo::h05af221e174051e9")
        self.assertEqual(kodliwe.demangle(LEGACY.encode()), b"foo")
        self.assertEqual(kodliwe.demangle("_RNvC3foo3bar.llvm.0AB@1"), "foo::bar")

    def test_arguments_are_folded(self):
        symbol = "_RNvMC3fooINtB2_3BarlE3baz"
        self.assertEqual(kodliwe.demangle(symbol), "<foo::Bar<i32>>::baz")
        self.assertEqual(kodliwe.demangle(symbol, fold=True), "<foo::Bar<_>>::baz")
        self.assertEqual(kodliwe.demangle(LEGACY, hash=True, fold=True), "foo::h05af221e174051e9")
        self.assertEqual(kodliwe.demangle("_RINvC3foo3barhE", limit=11, fold=True), "foo::bar::<{size limit reached}")
        self.assertEqual(kodliwe.try_demangle("main", fold=True), None)
        self.assertEqual(kodliwe.demangle_text("a %s b" % symbol, fold=True), "a <foo::Bar<_>>::baz b")
        self.assertEqual(kodliwe.demangle_text(b"\xff _RINvC3foo3barhE", fold=True), b"\xff foo::bar::<_>")

    def test_what_is_no_symbol_is_given_back(self):
        for text in ("main", "", "_ZN3foo", "ä", "\udcff", "\ud800_ZN3fooE", "a\0b"):
            self.assertIs(kodliwe.demangle(text), text)
        for text in (b"main", b"", b"\xff\xfe", b"_ZN3fo\xc3E"):
            self.assertIs(kodliwe.demangle(text), text)

    def test_an_empty_path_is_one(self):
        self.assertTrue(kodliwe.is_symbol("_ZN0E"))
        self.assertEqual(kodliwe.demangle("_ZN0E"), "")

    def test_a_limit_cuts(self):
        self.assertEqual(kodliwe.demangle("_ZN3foo3barE.cold.7", limit=4), "foo{size limit reached}.cold.7")
        with self.assertRaises(ValueError):
            kodliwe.demangle(LEGACY, limit=-1)

    def test_a_limit_may_be_0(self):
        for fold in (False, True):
            self.assertEqual(kodliwe.demangle("_ZN3foo3barE.cold.7", limit=0, fold=fold), "{size limit reached}.cold.7")
            self.assertEqual(kodliwe.try_demangle(LEGACY, limit=0, fold=fold), "{size limit reached}")
            text = "a %s b _RNvC3foo3bar\n" % LEGACY
            self.assertEqual(kodliwe.demangle_text(text, limit=0, fold=fold), "a {size limit reached} b {size limit reached}\n")

    def test_a_limit_may_be_any_number(self):
        # Each is 0, 1 or the greatest number in 64 bits.
        for limit in (2**64, 2**64 + 1, 2**64 - 1, 2**128):
            for fold in (False, True):
                self.assertEqual(kodliwe.demangle(LEGACY, limit=limit, fold=fold), "foo")
                self.assertEqual(kodliwe.try_demangle("_RNvC3foo3bar", limit=limit, fold=fold), "foo::bar")
                self.assertEqual(kodliwe.demangle_text("a %s\n" % LEGACY, limit=limit, fold=fold), "a foo\n")
                path = kodliwe.demangle_text(TREE, limit=limit, fold=fold)
                self.assertTrue(path.endswith("{size limit reached}"))
                self.assertLessEqual(len(path), 1_000_020)

    def test_a_long_path_is_whole(self):
        path = kodliwe.demangle(TREE, limit=10**30)
        self.assertEqual(len(path), 1_000_019)
        self.assertTrue(path.startswith("<((((((((((((((((((") and path.endswith("{size limit reached}"))
        self.assertEqual(kodliwe.demangle(LEGACY), "foo")

    def test_a_type_that_is_no_text(self):
        for call in (kodliwe.demangle, kodliwe.try_demangle, kodliwe.is_symbol, kodliwe.strip_thin_lto, kodliwe.demangle_text):
            with self.assertRaises(TypeError):
                call(7)

    @unittest.skipUnless(os.path.exists(CORPUS), "the repository's corpus is not there")
    def test_the_stored_answers(self):
        symbols, refused = stored()
        self.assertGreater(len(symbols), 1000)
        for symbol, full, short in symbols:
            self.assertEqual((kodliwe.demangle(symbol, hash=True), kodliwe.demangle(symbol)), (full, short))
            self.assertTrue(kodliwe.is_symbol(symbol))
        for text in refused:
            self.assertIs(kodliwe.demangle(text), text)
            self.assertIsNone(kodliwe.try_demangle(text))
            self.assertIsNone(kodliwe.strip_thin_lto(text))
            self.assertFalse(kodliwe.is_symbol(text))


class TryDemangle(unittest.TestCase):
    def test_a_symbol_gives_its_path(self):
        self.assertEqual(kodliwe.try_demangle(LEGACY), "foo")
        self.assertEqual(kodliwe.try_demangle(LEGACY.encode(), hash=True), b"foo::h05af221e174051e9")
        self.assertEqual(kodliwe.try_demangle("_ZN3foo3barE.cold.7", limit=4), "foo{size limit reached}.cold.7")
        self.assertEqual(kodliwe.try_demangle("_ZN0E"), "")

    def test_what_is_no_symbol_gives_none(self):
        for text in ("main", "", "_ZN3foo", "ä", "\udcff", b"main", b"", b"\xff\xfe", b"_ZN3fo\xc3E"):
            self.assertIsNone(kodliwe.try_demangle(text))


class StripThinLto(unittest.TestCase):
    def test_an_ending_is_taken_off(self):
        self.assertEqual(kodliwe.strip_thin_lto("_RNvC3foo3bar.llvm.0AB@1"), "_RNvC3foo3bar")
        self.assertEqual(kodliwe.strip_thin_lto(b"_ZN3foo3barE.cold.7.llvm.9"), b"_ZN3foo3barE.cold.7")

    def test_a_symbol_without_one_is_whole(self):
        for symbol in (LEGACY, "_ZN3foo3barE.cold.7", "_ZN3fooE.llvm.Z"):
            self.assertEqual(kodliwe.strip_thin_lto(symbol), symbol)

    def test_what_is_no_symbol_gives_none(self):
        for text in ("main", "main.llvm.9", "", "ä.llvm.9", b"_ZN\xff"):
            self.assertIsNone(kodliwe.strip_thin_lto(text))


class IsSymbol(unittest.TestCase):
    def test_a_symbol_is_told(self):
        self.assertIs(kodliwe.is_symbol(LEGACY), True)
        self.assertIs(kodliwe.is_symbol(LEGACY.encode()), True)
        self.assertIs(kodliwe.is_symbol("main"), False)
        self.assertIs(kodliwe.is_symbol("\ud800"), False)


class DemangleText(unittest.TestCase):
    def test_a_text_keeps_its_rest(self):
        self.assertEqual(kodliwe.demangle_text("at %s, _RNvC3foo3bar\n" % LEGACY), "at foo, foo::bar\n")
        self.assertEqual(kodliwe.demangle_text("%s-x" % LEGACY, hash=True), "foo::h05af221e174051e9-x")
        self.assertEqual(kodliwe.demangle_text(""), "")

    def test_bytes_need_be_no_utf8(self):
        self.assertEqual(kodliwe.demangle_text(b"\xff\0_ZN3fooE\xfe"), b"\xff\0foo\xfe")
        self.assertEqual(kodliwe.demangle_text("\udcff\ud800_ZN3fooEä"), "\udcff\ud800fooä")

    def test_the_characters_before_a_symbol(self):
        self.assertEqual(kodliwe.demangle_text("v1.0_RC0 SW_RC0.zip _RC0 __RC0 .text._ZN3fooE"), "v1.0_RC0 SW_RC0.zip _RC0 __RC0 .text.foo")
        self.assertEqual(kodliwe.demangle_text("__ZN3fooE a__ZN1aE __Rest a\\n_ZN1aE"), "foo a_a __Rest a\\na")
        pairs = [
            ("int _RC0 = 1; _RC2_40 config_Release __REG", "int _RC0 = 1; _RC2_40 config_Release __REG"),
            ('{"at":"a\\n_RNvC3foo3bar\\t_ZN3fooE\\r\\n_ZN3fooE"}', '{"at":"a\\nfoo::bar\\tfoo\\r\\nfoo"}'),
            ("\x1b[01;31m\x1b[K_RNvC3foo3bar\x1b[m\x1b[K", "\x1b[01;31m\x1b[Kfoo::bar\x1b[m\x1b[K"),
            ('write(1, "x\\n_RNvC3foo3bar\\t_ZN3foo"..., 40) = 40', 'write(1, "x\\nfoo::bar\\t_ZN3foo"..., 40) = 40'),
            (repr(b"\0_RNvC3foo3bar\xff_ZN3fooE"), "b'\\x00foo::bar\\xfffoo'"),
            ("%20_RNvC3foo3bar L_ZN3fooE .L_RNvC3foo3bar", "%20foo::bar Lfoo .Lfoo::bar"),
            ("_RMC3foox a_RXC0uC1t _RYsC5h05af __RMC3foox", "<i64> a<() as t> <i16 as h05af> <i64>"),
        ]
        for text, wanted in pairs:
            for fold in (False, True):
                self.assertEqual(kodliwe.demangle_text(text, fold=fold), wanted)
                self.assertEqual(kodliwe.demangle_text(text.encode(), fold=fold), wanted.encode())

    def test_a_limit_is_each_symbols(self):
        self.assertEqual(kodliwe.demangle_text("_ZN3foo3barE _ZN1aE", limit=4), "foo{size limit reached} a")

    def test_a_text_without_a_limit_has_1_000_bytes_for_each(self):
        symbol = "_RMC0FG15FTGf_Eu"
        text = (symbol + "\n") * 600
        for fold in (False, True):
            self.assertLessEqual(len(kodliwe.demangle_text(text, fold=fold)), 1_000 * len(text))
        self.assertGreater(len(kodliwe.demangle_text(symbol, limit=kodliwe.MAX_SIZE)), 1_000 * len(symbol))

    def test_a_long_text(self):
        count = 50_000
        self.assertEqual(kodliwe.demangle_text("x _RNvC3foo3bar\n" * count), "x foo::bar\n" * count)

    def test_the_end_of_a_piece_changes_nothing(self):
        pairs = [
            (" _RNvC3foo3bar", " foo::bar"),
            ("a_RC1a __ZN1aE", "a_RC1a a"),
            ("a_ZN1aE", "aa"),
            ("\\n_RNvC3foo3bar", "\\nfoo::bar"),
            ("\x1b[31m_RNvC3foo3bar", "\x1b[31mfoo::bar"),
            ("_RC2_40 ", "_RC2_40 "),
            ("\xff__ZN3fooE\xfe", "\xfffoo\xfe"),
            ("._ZN1aE", ".a"),
        ]
        for symbol, path in pairs:
            for at in range(kodliwe._PIECE - 20, kodliwe._PIECE + 3):
                start, end = "-" * at, "-_ZN1bE" * 10
                given, wanted = (text.encode("latin-1") for text in (start + symbol + end, start + path + "-b" * 10))
                self.assertEqual(kodliwe.demangle_text(given), wanted, (symbol, at))

    def test_no_text_is_printed_twice(self):
        asked, calls = [], kodliwe._calls()

        def call(text, size, *rest):
            asked.append(size)
            return calls.demangle_text(text, size, *rest)

        binder = "_RMC0FGZZZZZZZZZZ_Eu"
        line, long = binder + ".a" * 40 + "\n", binder + ".a" * 200_000
        short = line * (kodliwe._PIECE // len(line))
        with unittest.mock.patch.object(kodliwe, "_calls", lambda: calls._replace(demangle_text=call)):
            for text in (short * 3, long, short + long + short):
                asked.clear()
                self.assertGreater(len(kodliwe.demangle_text(text)), 1_000_000)
                self.assertEqual(sum(asked), len(text))


class Version(unittest.TestCase):
    def test_it_says_how_the_library_was_built(self):
        self.assertRegex(kodliwe.version(), r"\Akodliwe %s, (proved with Rattle|tested, not proved)\Z" % re.escape(kodliwe.__version__))


class Calls(unittest.TestCase):
    def test_threads_do_not_mix(self):
        wrong = []

        def ask(name):
            symbol, path = "_RNvC%d%s3bar" % (len(name), name), "%s::bar" % name
            for _ in range(2000):
                if kodliwe.demangle(symbol) != path or kodliwe.demangle_text("<%s>" % symbol) != "<%s>" % path:
                    wrong.append(name)

        threads = [threading.Thread(target=ask, args=(letter * 9,)) for letter in "abcdefgh"]
        for thread in threads:
            thread.start()
        for thread in threads:
            thread.join()
        self.assertEqual(wrong, [])

    @unittest.skipUnless(hasattr(signal, "setitimer"), "there is no timer")
    def test_a_handler_may_call_in_the_midst_of_a_call(self):
        seen = []
        old = signal.signal(signal.SIGALRM, lambda *_: seen.append(kodliwe.demangle("_RNvC5other3bar")))
        signal.setitimer(signal.ITIMER_REAL, 0.0005, 0.0005)
        try:
            wrong = [path for path in (kodliwe.demangle(LEGACY) for _ in range(100_000)) if path != "foo"]
        finally:
            signal.setitimer(signal.ITIMER_REAL, 0)
            signal.signal(signal.SIGALRM, old)
        self.assertEqual(wrong, [])
        self.assertTrue(seen and set(seen) == {"other::bar"})

    def in_a_thread(self, call):
        """Returns what a call returns in a thread of its own, which has no buffer yet."""
        found = []
        thread = threading.Thread(target=lambda: found.append(call()))
        thread.start()
        thread.join()
        return found[0]

    def test_a_buffer_is_used_again(self):
        def buffers():
            found, new = [], kodliwe._buffer
            with unittest.mock.patch.object(kodliwe, "_buffer", lambda size: found.append(size) or new(size)):
                for _ in range(3):
                    self.assertEqual(kodliwe.demangle(LEGACY), "foo")
                    self.assertEqual(kodliwe.demangle_text("a _RNvC3foo3bar\n"), "a foo::bar\n")
                    self.assertIsNone(kodliwe.try_demangle("main"))
            return found

        self.assertEqual(self.in_a_thread(buffers), [kodliwe._KEPT])

    def test_a_larger_buffer_is_not_kept(self):
        def kept():
            text = b"x" * (kodliwe._KEPT + 1)
            self.assertEqual(kodliwe.demangle(LEGACY), "foo")
            first = list(kodliwe._rooms.free)
            self.assertEqual(kodliwe.demangle(text), text)
            return [(len(buffer), buffer in first) for buffer in kodliwe._rooms.free]

        self.assertEqual(self.in_a_thread(kept), [(kodliwe._KEPT, True)])

    def test_a_call_within_a_call_has_a_buffer_of_its_own(self):
        calls = kodliwe._calls()

        def call(*arguments):
            size = calls.demangle(*arguments)
            with unittest.mock.patch.object(kodliwe, "_calls", lambda: calls):
                self.assertEqual(kodliwe.demangle("_RNvC5other3bar"), "other::bar")
            return size

        def paths():
            with unittest.mock.patch.object(kodliwe, "_calls", lambda: calls._replace(demangle=call)):
                return [kodliwe.demangle(LEGACY) for _ in range(3)] + list(map(len, kodliwe._rooms.free))

        self.assertEqual(self.in_a_thread(paths), ["foo"] * 3 + [kodliwe._KEPT] * 2)

    def test_the_examples(self):
        self.assertEqual(doctest.testmod(kodliwe).failed, 0)
        self.assertEqual(doctest.testfile(os.path.join(HERE, "..", "README.md"), module_relative=False).failed, 0)


class Library(unittest.TestCase):
    CODE = "import sys; sys.path.insert(0, sys.argv[1]); import kodliwe; print(kodliwe.demangle('_ZN3fooE'))"

    def file(self):
        return kodliwe._load()._name

    def test_it_is_the_one_that_is_named(self):
        for named in (self.file(), os.path.dirname(self.file())):
            self.assertEqual(run(self.CODE, os.path.dirname(MODULE), KODLIWE_LIB=named).stdout, b"foo\n")

    def test_it_is_beside_the_module(self):
        with tempfile.TemporaryDirectory() as folder:
            shutil.copy(MODULE, folder)
            shutil.copy(self.file(), os.path.join(folder, "libkodliwe.so"))
            self.assertEqual(run(self.CODE, folder, KODLIWE_LIB="").stdout, b"foo\n")

    def test_it_is_of_the_same_prefix(self):
        with tempfile.TemporaryDirectory() as prefix:
            for folder in ("lib/python3.9/site-packages", "lib/python3/dist-packages/kodliwe"):
                place = os.path.join(prefix, folder)
                os.makedirs(place)
                shutil.copy(MODULE, place)
                shutil.copy(self.file(), os.path.join(prefix, "lib", "libkodliwe.so"))
                code = self.CODE + "; print(kodliwe._load()._name)"
                said = run(code, place, KODLIWE_LIB="").stdout.decode()
                self.assertEqual(said, "foo\n%s/lib/libkodliwe.so\n" % prefix)
                # One next to the module comes first.
                shutil.copy(self.file(), os.path.join(place, "libkodliwe.so"))
                said = run(code, place, KODLIWE_LIB="").stdout.decode()
                self.assertEqual(said, "foo\n%s/libkodliwe.so\n" % place)

    def test_none_is_said_in_one_line(self):
        how = b"OSError: kodliwe finds no libkodliwe.so: `make install PREFIX=%s` in Kodliwe's repository installs it"
        with tempfile.TemporaryDirectory() as prefix:
            place = os.path.join(prefix, "lib", "python3", "site-packages")
            os.makedirs(place)
            shutil.copy(MODULE, place)
            for folder, told in ((place, prefix.encode()), (os.path.dirname(MODULE), b"/usr/local")):
                code = "import sys; sys.prefix = sys.base_prefix\n" + self.CODE
                ran = run(code, folder, KODLIWE_LIB=os.path.join(HERE, "none.so"))
                self.assertEqual(ran.returncode, 1)
                self.assertIn(how % told, ran.stderr.splitlines()[-1])

    def test_it_is_looked_for_once(self):
        code = (
            "import sys; sys.path.insert(0, sys.argv[1]); import kodliwe\n"
            "asked = []\n"
            "kodliwe._candidates = lambda: asked.append(1) or ['/none.so']\n"
            "for _ in range(3):\n"
            "    try:\n"
            "        kodliwe.demangle('_ZN3fooE')\n"
            "    except OSError as error:\n"
            "        print(str(error)[:31], len(asked))\n"
        )
        self.assertEqual(run(code, os.path.dirname(MODULE)).stdout, b"kodliwe finds no libkodliwe.so: 1\n" * 3)

    def test_the_package_says_the_same_everywhere(self):
        import packing

        with open(os.path.join(HERE, "..", "pyproject.toml")) as file:
            project = dict(re.findall(r'^([\w-]+) = "(.*)"$', file.read(), re.M))
        for field, key in (("Name", "name"), ("Version", "version"), ("Summary", "description"), ("Requires-Python", "requires-python")):
            self.assertIn("\n%s: %s\n" % (field, project[key]), packing.METADATA)
        self.assertEqual((packing.NAME, packing.VERSION), (project["name"], kodliwe.__version__))


class Packing(unittest.TestCase):
    def test_the_wheel_has_the_named_library(self):
        import packing

        library = kodliwe._load()._name
        with tempfile.TemporaryDirectory() as folder, mock.patch.dict(os.environ, KODLIWE_LIB=library):
            name = packing.build_wheel(folder)
            self.assertEqual(os.listdir(folder), [name])
            self.assertEqual(name, "kodliwe-%s-py3-none-%s.whl" % (kodliwe.__version__, packing._platform()))
            with zipfile.ZipFile(os.path.join(folder, name)) as wheel, open(library, "rb") as file:
                self.assertEqual(wheel.read("kodliwe/" + packing.LIBRARY), file.read())
                about, record = (wheel.read("%s/%s" % (packing.DIST_INFO, part)).decode() for part in ("WHEEL", "RECORD"))
                self.assertEqual(about.splitlines()[2:], ["Root-Is-Purelib: false", "Tag: py3-none-" + packing._platform()])
                self.assertEqual(sorted(line.split(",")[0] for line in record.splitlines()), sorted(wheel.namelist()))
                for line in record.splitlines()[:-1]:
                    place, digest, size = line.split(",")
                    data = wheel.read(place)
                    wanted = base64.urlsafe_b64encode(hashlib.sha256(data).digest()).rstrip(b"=").decode()
                    self.assertEqual((digest, int(size)), ("sha256=" + wanted, len(data)))

    def test_the_tag_of_each_system(self):
        import packing

        for system, name, machine, tag in (
            ("linux", "linux-x86_64", "x86_64", "linux_x86_64"),
            ("linux", "linux-aarch64", "aarch64", "linux_aarch64"),
            ("win32", "win-amd64", "AMD64", "win_amd64"),
            ("darwin", "macosx-10.9-x86_64", "x86_64", "macosx_10_9_x86_64"),
            ("darwin", "macosx-10.9-universal2", "arm64", "macosx_11_0_arm64"),
            ("darwin", "macosx-14.2-arm64", "arm64", "macosx_14_0_arm64"),
        ):
            with mock.patch("sys.platform", system), mock.patch("sysconfig.get_platform", lambda name=name: name):
                with mock.patch("platform.machine", lambda machine=machine: machine):
                    self.assertEqual(packing._platform(), tag)


class Program(unittest.TestCase):
    def ran(self, *words, given=b"", lib=None, **more):
        env = dict(os.environ, KODLIWE_LIB=lib or kodliwe._load()._name)
        more.setdefault("stdout", subprocess.PIPE)
        ran = subprocess.run([sys.executable, MODULE, *words], input=given, stderr=subprocess.PIPE, env=env, **more)
        return ran.returncode, ran.stdout, ran.stderr.decode()

    def test_symbols_are_lines(self):
        self.assertEqual(self.ran(LEGACY, "main", "at _ZN3fooE"), (0, b"foo\nmain\nat foo\n", ""))
        self.assertEqual(self.ran("--", "-x", LEGACY), (0, b"-x\nfoo\n", ""))

    def test_an_argument_is_a_symbol_as_a_whole(self):
        words = ("RNvC3foo3bar", "ZN3foo3barE", "__ZN3foo3barE", "__RNvC3foo3bar", "_ZN3fooE.a@_ZN3barE")
        self.assertEqual(self.ran(*words), (0, b"foo::bar\n" * 4 + b"foo.a@_ZN3barE\n", ""))
        self.assertEqual(self.ran("-f", "RINvC3foo3barhE", "RNvC3foo3bar x"), (0, b"foo::bar::<_>\nRNvC3foo3bar x\n", ""))

    def test_an_argument_begins_a_line(self):
        self.assertEqual(self.ran("-", LEGACY, "-i", "-", given=b"_ZN1bE"), (0, b"b\nfoo\n", ""))
        self.assertEqual(self.ran("-", LEGACY, given=b"x\n"), (0, b"x\nfoo\n", ""))

    def test_standard_input_is_filtered(self):
        given = b"\xff " + LEGACY.encode() + b"\nend"
        for words in ((), ("-",), ("-i", "-"), ("--input=-",)):
            self.assertEqual(self.ran(*words, given=given), (0, b"\xff foo\nend", ""))

    def test_the_hash_is_kept(self):
        for words in (("--hash", LEGACY), (LEGACY, "--hash")):
            self.assertEqual(self.ran(*words), (0, b"foo::h05af221e174051e9\n", ""))
        self.assertEqual(self.ran("--hash", given=LEGACY.encode()), (0, b"foo::h05af221e174051e9", ""))

    def test_a_file_is_read_in_its_turn(self):
        with tempfile.TemporaryDirectory() as folder:
            name = os.path.join(folder, "log")
            with open(name, "wb") as file:
                file.write(b"x _ZN3fooE\n" * 20_000 + b"a" * 200_000 + b" _ZN3fooE")
            filtered = b"x foo\n" * 20_000 + b"a" * 200_000 + b" foo"
            for words in (("-i", name), ("-i" + name,), ("--input", name), ("--input=" + name,)):
                # assertEqual would search for the difference of long texts for minutes
                self.assertTrue(self.ran("1", *words, "2") == (0, b"1\n" + filtered + b"\n2\n", ""), words)
            self.assertEqual(self.ran("1", "-i", name + "x", "2"), (1, b"1\n", "kodliwe: %sx: No such file or directory\n" % name))
            self.assertEqual(self.ran("-i", folder), (1, b"", "kodliwe: %s: Is a directory\n" % folder))

    def test_a_limit_cuts(self):
        for words in (("-l", "3"), ("-l3",), ("--limit=3",)):
            self.assertEqual(self.ran(*words, "_ZN3foo3barE"), (0, b"foo{size limit reached}\n", ""))

    def test_help_and_version_are_printed_without_a_library(self):
        for word in ("-h", "--help"):
            status, said, faults = self.ran(word, lib="/none.so")
            self.assertEqual((status, faults), (0, ""))
            for option in (b"-i, --input FILE", b"--hash", b"-l, --limit BYTES", b"-h, --help", b"-V, --version", b"[SYMBOL]"):
                self.assertIn(option, said)
            self.assertLessEqual(max(map(len, said.splitlines())), 80)
        for word in ("-V", "--version"):
            self.assertEqual(self.ran(word, lib="/none.so"), (0, b"kodliwe %s\n" % kodliwe.__version__.encode(), ""))
            self.assertEqual(self.ran(word), (0, kodliwe.version().encode() + b"\n", ""))

    def test_a_wrong_word_reads_nothing(self):
        told = "; try 'python3 -m kodliwe --help'\n"
        for words, why in (
            (["-x"], "unknown option '-x'"),
            (["--hash=1"], "unknown option '--hash=1'"),
            (["-i"], "option '-i' needs a FILE"),
            (["--limit"], "option '--limit' needs a number of BYTES"),
            (["-l", "1K"], "option '-l': '1K' is not a number of bytes below 2^64"),
            (["-l", str(1 << 64)], "option '-l': '%d' is not a number of bytes below 2^64" % (1 << 64)),
        ):
            self.assertEqual(self.ran(LEGACY, *words), (2, b"", "kodliwe: " + why + told))

    def test_no_library_is_one_line(self):
        status, said, faults = self.ran(LEGACY, lib="/none.so")
        self.assertEqual((status, said, faults.count("\n")), (1, b"", 1))
        self.assertTrue(faults.startswith("kodliwe: kodliwe finds no libkodliwe.so: `make install PREFIX="), faults)

    def test_a_closed_output_is_no_fault(self):
        reading, writing = os.pipe()
        os.close(reading)
        try:
            self.assertEqual(self.ran(LEGACY, stdout=writing), (0, None, ""))
        finally:
            os.close(writing)

    @unittest.skipUnless(os.path.exists("/dev/full"), "there is no full device")
    def test_a_full_output_is_one(self):
        with open("/dev/full", "wb") as full:
            self.assertEqual(self.ran(LEGACY, stdout=full), (1, None, "kodliwe: write failed: No space left on device\n"))

    def test_a_line_is_written_before_the_next_is_there(self):
        env = dict(os.environ, KODLIWE_LIB=kodliwe._load()._name)
        env.pop("PYTHONUNBUFFERED", None)
        with subprocess.Popen([sys.executable, MODULE], stdin=subprocess.PIPE, stdout=subprocess.PIPE, env=env) as child:
            late = threading.Timer(20, child.kill)
            late.start()
            child.stdin.write(b"a _ZN3fooE\n")
            child.stdin.flush()
            self.assertEqual(child.stdout.readline(), b"a foo\n")
            child.stdin.close()
            self.assertEqual(child.stdout.read(), b"")
            late.cancel()


if __name__ == "__main__":
    unittest.main()
