"""Demangles Rust symbols, of the legacy scheme (``_ZN..E``) and of v0 (``_R..``, Rust RFC 2603).

    >>> import kodliwe
    >>> kodliwe.demangle("_ZN3foo17h05af221e174051e9E")
    'foo'
    >>> kodliwe.demangle_text("worker 1: called _RNvC3foo3bar")
    'worker 1: called foo::bar'

The functions call the library for C, ``libkodliwe``, through ctypes. ``version`` says whether it is the proved one. The variable
``KODLIWE_LIB`` names the shared library, or its folder. Without this variable, these are tried in order:

- the library next to this module, which ``pip install`` builds,
- the one in ``lib`` of the PREFIX in which this module is installed,
- the one in the prefix of this Python,
- the one in ``/usr/local``,
- the one that the system's loader finds.

The module searches for the library once, at the first call. If there is none, each call raises ``OSError``.

A text is ``str`` or ``bytes``, and the result has the same type. Anything that is not a symbol stays unchanged, whether it is
UTF-8 or not. The calls may be made from any thread. ``python3 -m kodliwe --help`` says how the module is used as a program.
"""

import ctypes
import ctypes.util
import functools
import mmap
import os
import re
import sys
import threading
from typing import Any, AnyStr, Callable, Iterator, List, NamedTuple, Optional, Tuple, Union

__all__ = ["MAX_SIZE", "demangle", "demangle_text", "is_symbol", "strip_thin_lto", "try_demangle", "version"]
__version__ = "0.1.0"

#: The most bytes that are printed for a symbol, before ``{size limit reached}`` and its suffix.
MAX_SIZE = 1_000_000

# Says to the library that no limit is given.
_NO_LIMIT = ctypes.c_size_t(-1).value
_NAMES = ("libkodliwe.so", "libkodliwe.so.0", "libkodliwe.so." + __version__, "libkodliwe.dylib", "kodliwe.dll")
# The marker of a path that is cut, and the NUL after a text.
_AFTER = len("{size limit reached}") + 1
# A long text is printed in pieces of so many bytes, and the rest of the candidate at their end.
_PIECE = 1 << 14
# A byte after which a text is cut. No symbol has it, so what follows it is as at the start of a text.
_BETWEEN = re.compile(rb"[^0-9A-Za-z_.$]")
# Enough for what a piece prints if no limit is given, besides the bytes of the candidate at its end, and for any path.
_ROOM = 1000 * (_PIECE + 1) + MAX_SIZE + _AFTER
# The size of the buffers that are kept.
_KEPT = _ROOM + 2 * _PIECE


class _Calls(NamedTuple):
    is_symbol: Callable[..., bool]
    symbol_len: Callable[..., int]
    demangle: Callable[..., int]
    demangle_text: Callable[..., int]
    demangle_folded: Callable[..., int]
    demangle_text_folded: Callable[..., int]


def _prefixes() -> List[str]:
    """Returns the prefixes whose ``lib`` may have the library. The first is that of this module, if it is installed."""
    folder, prefixes = os.path.dirname(os.path.abspath(__file__)), []
    while folder != os.path.dirname(folder):
        if os.path.basename(folder) in ("lib", "lib64"):
            prefixes.append(os.path.dirname(folder))
        folder = os.path.dirname(folder)
    is_venv = sys.prefix != sys.base_prefix
    return prefixes + ([sys.prefix, "/usr/local"] if is_venv else ["/usr/local", sys.prefix])


def _candidates() -> Iterator[str]:
    """Yields the files that may be the library, in the order in which they are tried."""
    named = os.environ.get("KODLIWE_LIB")
    if named:
        yield from [os.path.join(named, name) for name in _NAMES] if os.path.isdir(named) else [named]
        return
    folders = [os.path.dirname(os.path.abspath(__file__))]
    for prefix in _prefixes():
        folders += [os.path.join(prefix, "lib"), os.path.join(prefix, "lib64")]
    yield from filter(os.path.exists, (os.path.join(folder, name) for folder in folders for name in _NAMES))
    found = ctypes.util.find_library("kodliwe")
    yield from ([found] if found else []) + list(_NAMES[:2])


# The result of `_load`: the library, or the error. It searches once, since `find_library` starts other programs.
_found: List[Union[ctypes.CDLL, str]] = []


def _load() -> ctypes.CDLL:
    """Returns the library. Fails if there is none, each time with the same error."""
    if not _found:
        _found.append(_looked_for())
    if isinstance(_found[0], str):
        raise OSError(_found[0])
    return _found[0]


def _looked_for() -> Union[ctypes.CDLL, str]:
    """Returns the first library that is found, or a text that says why there is none."""
    tried = []
    for path in _candidates():
        try:
            return ctypes.CDLL(path)
        except OSError as error:
            tried.append(str(error))
    how = (
        "`make install PREFIX=%s` in Kodliwe's repository installs it for this module, `pip install` of its bindings/python builds it"
        % _prefixes()[0]
    )
    how += ", or KODLIWE_LIB names it"
    return "kodliwe finds no libkodliwe.so: %s (%s)" % (how, "; ".join(tried))


@functools.lru_cache(maxsize=None)
def _calls() -> _Calls:
    library = _load()
    size, text, flag = ctypes.c_size_t, ctypes.c_char_p, ctypes.c_bool
    library.kodliwe_is_symbol.argtypes = [text, size]
    library.kodliwe_is_symbol.restype = flag
    library.kodliwe_symbol_len.argtypes = [text, size]
    library.kodliwe_symbol_len.restype = size
    printing = (
        library.kodliwe_demangle_limited,
        library.kodliwe_demangle_text,
        library.kodliwe_demangle_folded,
        library.kodliwe_demangle_text_folded,
    )
    for call in printing:
        call.argtypes = [text, size, ctypes.c_void_p, size, flag, size]
        call.restype = size
    return _Calls(library.kodliwe_is_symbol, library.kodliwe_symbol_len, *printing)


class _Rooms(threading.local):
    """Has buffers of this thread, which its calls reuse. A call removes a buffer while it uses it. So a signal handler may make a
    call during another."""

    def __init__(self) -> None:
        self.free: List[Any] = []


_rooms = _Rooms()


def _buffer(size: int) -> Any:
    """Returns a new buffer. The system gives it memory where it is written."""
    return (ctypes.c_char * size).from_buffer(mmap.mmap(-1, size))


def _written(call: Callable[..., int], text: bytes, include_hash: bool, limit: int) -> Optional[bytes]:
    """Returns the bytes that a call writes for a text, without the NUL, or None if the call returns 0.

    It calls once if no limit is given and the text is a piece, or a symbol. Otherwise it may call again, with a larger buffer.
    """
    free, size = _rooms.free, max(_KEPT, _ROOM + len(text))
    buffer = free.pop() if free and size == _KEPT else _buffer(size)
    want = call(text, len(text), buffer, size, include_hash, limit)
    if want > size:
        if want > sys.maxsize:
            raise OverflowError("the text would have more than %d bytes" % (sys.maxsize - 1))
        larger = _buffer(want)
        call(text, len(text), larger, want, include_hash, limit)
        answer: Optional[bytes] = ctypes.string_at(larger, want - 1)
    else:
        answer = ctypes.string_at(buffer, want - 1) if want else None
    if size == _KEPT:
        free.append(buffer)
    return answer


def _pieces(text: bytes) -> Iterator[bytes]:
    """Yields the pieces of a text. Each one but the last ends after the first byte from its `_PIECE`th on that no symbol has."""
    start = 0
    while len(text) - start > _PIECE:
        found = _BETWEEN.search(text, start + _PIECE)
        if found is None:
            break
        yield text[start : found.end()]
        start = found.end()
    yield text[start:] if start else text


def _encoded(text: AnyStr) -> bytes:
    if isinstance(text, str):
        return text.encode("utf-8", "surrogatepass")
    if isinstance(text, bytes):
        return text
    raise TypeError("a text is str or bytes, not %s" % type(text).__name__)


def _as_given(given: AnyStr, answer: bytes) -> AnyStr:
    return answer.decode("utf-8", "surrogatepass") if isinstance(given, str) else answer


def _limit(limit: int) -> int:
    if limit < 0:
        raise ValueError("a limit is not negative")
    return min(limit, MAX_SIZE)


def version() -> str:
    """Returns the name and the version of the library, and how it was built: proved with Rattle, or only tested.

    >>> version()  # doctest: +ELLIPSIS
    'kodliwe 0.1.0, ...'
    """
    call = _load().kodliwe_version
    call.argtypes, call.restype = [ctypes.c_void_p, ctypes.c_size_t], ctypes.c_size_t
    text = ctypes.create_string_buffer(call(ctypes.create_string_buffer(1), 0))
    call(text, len(text))
    return text.value.decode()


def is_symbol(text: AnyStr) -> bool:
    """Returns whether the text is a Rust symbol, after a suffix of ThinLTO (``.llvm.``) is removed. Prints no path."""
    symbol = _encoded(text)
    return _calls().is_symbol(symbol, len(symbol))


def strip_thin_lto(text: AnyStr) -> Optional[AnyStr]:
    """Returns a Rust symbol without the suffix (``.llvm.``) that ThinLTO appended to it. A symbol without one is unchanged.

    Returns None if the text is not a Rust symbol. Prints no path.
    """
    symbol = _encoded(text)
    size = _calls().symbol_len(symbol, len(symbol))
    # A symbol and its suffix are ASCII, so each byte is one character.
    return text[:size] if size else None


def try_demangle(text: AnyStr, hash: bool = False, limit: int = MAX_SIZE, fold: bool = False) -> Optional[AnyStr]:
    """Returns the path of a Rust symbol, as ``demangle`` does, or None if the text is not a Rust symbol."""
    calls = _calls()
    path = _written(calls.demangle_folded if fold else calls.demangle, _encoded(text), hash, _limit(limit))
    return None if path is None else _as_given(text, path)


def demangle(text: AnyStr, hash: bool = False, limit: int = MAX_SIZE, fold: bool = False) -> AnyStr:
    """Returns the path of a Rust symbol, and any other text unchanged.

    ``hash`` keeps the hash of a legacy symbol, and the disambiguators of v0. A path ends after at most ``limit`` bytes, and
    after a million of them at most. ``{size limit reached}`` and the symbol's suffix then follow. ``fold`` prints ``_`` for each
    list of generic arguments of a v0 symbol, so all instances of a function have one name.

    >>> demangle("_RINvC3foo3barhE", fold=True)
    'foo::bar::<_>'
    """
    path = try_demangle(text, hash, limit, fold)
    return text if path is None else path


def demangle_text(text: AnyStr, hash: bool = False, limit: Optional[int] = None, fold: bool = False) -> AnyStr:
    """Returns the text with each Rust symbol in it replaced by its path, and the rest unchanged.

    A candidate symbol starts at ``_ZN`` or ``_R``. It ends before the next character that is not an ASCII letter, a digit,
    ``$``, ``.`` or ``_``. It stays if it begins with ``_RC``. A single ``_`` before a symbol, as macOS has it, is replaced with
    it, if the ``_`` is the first character or follows one that no symbol may have. The arguments ``hash``, ``limit`` and
    ``fold`` are those of ``demangle``, for each symbol. Without a limit, the path of a symbol of n bytes ends after at most
    999 n - 20 bytes, and a million. So the text gets at most 1,000 bytes for each of its own. A path also ends where the
    references of its symbol would have more than 384 n bytes, or more than 384,000,000, read again. So without a limit the time
    grows with the text alone.
    """
    given, calls = _encoded(text), _calls()
    most = _NO_LIMIT if limit is None else _limit(limit)
    call = calls.demangle_text_folded if fold else calls.demangle_text
    # The call never returns 0, so no piece is None.
    return _as_given(text, b"".join(_written(call, piece, hash, most) or b"" for piece in _pieces(given)))


_HELP = """\
Usage: python3 -m kodliwe [OPTIONS] [SYMBOL]...

Copies text with each Rust symbol in it demangled (legacy _ZN..E and v0 _R..).
Each SYMBOL is a line of its own: a symbol with or without its underscores, or
text. Without a SYMBOL and without an input, standard input is read.

Options:
  -i, --input FILE    Read FILE; - is standard input. May be given several times
      --hash          Keep the hashes of legacy symbols (foo::h05af221e174051e9)
  -f, --fold          Print generic arguments as _ (Vec<_> for Vec<u8>)
  -l, --limit BYTES   Cut each path at BYTES (at most 1000000 if not given)
  -h, --help          Print this help
  -V, --version       Print the version and how the library was built

SYMBOLs and inputs are printed in their order. -- ends the options. The status
is 0, also if the reader of the output closes it; 1 if an input can't be read
or the output can't be written; 2 if an option is unknown, and then nothing is
read. The program kodliwe is faster and can write a file.
"""


class _Fault(Exception):
    """Ends the program with a line on standard error and a status."""

    def __init__(self, line: str, status: int) -> None:
        super().__init__(line)
        self.status = status


class _Words(NamedTuple):
    """The parsed arguments. ``inputs`` has files and symbols in their order; if ``text`` is not empty, only it is printed."""

    inputs: List[Tuple[bool, str]]
    hash: bool = False
    limit: Optional[int] = None
    fold: bool = False
    text: str = ""


def _split(word: str) -> Tuple[str, Optional[str]]:
    """Returns the long name of an option and the value in the same argument, if it has one."""
    for short, name in (("-i", "--input"), ("-l", "--limit")):
        if word in (short, name):
            return name, None
        if word.startswith(name + "="):
            return name, word[len(name) + 1 :]
        if word.startswith(short):
            return name, word[len(short) :]
    return {"-f": "--fold", "-h": "--help", "-V": "--version"}.get(word, word), None


def _value(word: str, name: str, value: Optional[str], rest: Iterator[str]) -> str:
    """Returns the value of an option, from its argument or the next. Fails if there is none."""
    given = next(rest, None) if value is None else value
    if given is None:
        needs = "FILE" if name == "--input" else "number of BYTES"
        raise _Fault("option '%s' needs a %s; try 'python3 -m kodliwe --help'" % (word, needs), 2)
    return given


def _bytes(word: str, value: str) -> int:
    """Returns the number of bytes that an argument gives. Fails if it is not a number below 2^64."""
    if not (value.isascii() and value.isdigit() and int(value) < 1 << 64):
        raise _Fault("option '%s': '%s' is not a number of bytes below 2^64; try 'python3 -m kodliwe --help'" % (word, value), 2)
    return int(value)


def _about() -> str:
    """Returns the version, and how the library was built if there is one."""
    try:
        return version() + "\n"
    except OSError:
        return "kodliwe %s\n" % __version__


def _parsed(words: List[str]) -> _Words:
    """Parses the arguments. Fails at the first that is wrong."""
    found, rest = _Words([]), iter(words)
    for word in rest:
        name, value = _split(word)
        if word == "--":
            found.inputs.extend((False, symbol) for symbol in rest)
        elif word == "-" or not word.startswith("-"):
            found.inputs.append((word == "-", word))
        elif name == "--hash":
            found = found._replace(hash=True)
        elif name == "--fold":
            found = found._replace(fold=True)
        elif name == "--input":
            found.inputs.append((True, _value(word, name, value, rest)))
        elif name == "--limit":
            found = found._replace(limit=_bytes(word, _value(word, name, value, rest)))
        elif name in ("--help", "--version"):
            return found._replace(text=_HELP if name == "--help" else _about())
        else:
            raise _Fault("unknown option '%s'; try 'python3 -m kodliwe --help'" % word, 2)
    return found if found.inputs else found._replace(inputs=[(True, "-")])


def _lines(file: str) -> Iterator[bytes]:
    """Yields the lines of a file, as many at a time as are available. Fails if it can't be read."""
    kept: List[bytes] = []
    try:
        stream = open(0, "rb", buffering=0, closefd=False) if file == "-" else open(file, "rb", buffering=0)
        with stream:
            while True:
                chunk = stream.read(1 << 16)
                if not chunk:
                    break
                end = chunk.rfind(b"\n") + 1
                if end:
                    yield b"".join(kept) + chunk[:end]
                    kept = []
                kept.append(chunk[end:])
    except OSError as error:
        raise _Fault("%s: %s" % ("standard input" if file == "-" else file, error.strerror), 1) from error
    yield b"".join(kept)


def _print(text: bytes) -> None:
    """Writes to standard output at once. Fails if it can't be written."""
    try:
        sys.stdout.buffer.write(text)
        sys.stdout.buffer.flush()
    except OSError as error:
        os.dup2(os.open(os.devnull, os.O_WRONLY), sys.stdout.fileno())  # so that Python does not try again at exit
        is_closed = isinstance(error, BrokenPipeError)
        raise _Fault("" if is_closed else "write failed: %s" % error.strerror, 0 if is_closed else 1) from error


def _argument(given: bytes, words: _Words) -> bytes:
    """Returns what an argument prints: its path if the whole of it is a symbol, or else its text with the symbols replaced."""
    path = try_demangle(given, words.hash, MAX_SIZE if words.limit is None else words.limit, words.fold)
    return demangle_text(given, words.hash, words.limit, words.fold) if path is None else path


def _filter(words: _Words) -> None:
    """Prints the inputs with their symbols demangled."""
    if words.text:
        _print(words.text.encode())
        return
    try:
        _load()
    except OSError as error:
        raise _Fault(str(error), 1) from error
    is_within_line = False
    for is_file, name in words.inputs:
        if not is_file:
            _print(b"\n" * is_within_line + _argument(os.fsencode(name), words) + b"\n")
            is_within_line = False
            continue
        for text in _lines(name):
            _print(demangle_text(text, words.hash, words.limit, words.fold))
            is_within_line = not text.endswith(b"\n") if text else is_within_line


def _main(words: List[str]) -> int:
    """Runs the module as a program, and returns its status."""
    try:
        _filter(_parsed(words))
    except _Fault as fault:
        if str(fault):
            print("kodliwe: %s" % fault, file=sys.stderr)
        return fault.status
    return 0


if __name__ == "__main__":
    sys.exit(_main(sys.argv[1:]))
