"""Packs the module as a wheel (PEP 517, PEP 427), only with Python and cargo. So `pip install` needs no other package and no network.

In the wheel the module is a package of the same name, since only a package can say that it has types (PEP 561). It has the library
that it calls next to it. The first of these gives the library:

- KODLIWE_LIB, if it is set: the file that it names, or the one in the folder that it names.
- A library that is installed where the module looks. The wheel then has none, and fits every platform.
- cargo, which builds it from the folder rust of the repository or of the source package.

The fields of METADATA are those of pyproject.toml's [project]; test_kodliwe.py compares them.
"""

import base64
import hashlib
import io
import os
import platform
import re
import shutil
import subprocess
import sys
import sysconfig
import tarfile
import tempfile
import zipfile
from typing import Any, Iterator, List, NoReturn, Optional, Tuple

NAME, VERSION = "kodliwe", "0.1.0"
METADATA = """\
Metadata-Version: 2.1
Name: kodliwe
Version: 0.1.0
Summary: A demangler of Rust symbols, through ctypes
License: MIT
Requires-Python: >=3.8
Description-Content-Type: text/markdown

"""
WHEEL = "Wheel-Version: 1.0\nGenerator: kodliwe\nRoot-Is-Purelib: %s\nTag: py3-none-%s\n"
MAIN = b"import sys\n\nfrom kodliwe import _main\n\nsys.exit(_main(sys.argv[1:]))\n"
HERE = os.path.dirname(os.path.abspath(__file__))
DIST_INFO = "%s-%s.dist-info" % (NAME, VERSION)
# The packages of rust/ that the library is built from.
PACKAGES = ("kodliwe", "kodliwe-capi")
# The library's file, by the system.
LIBRARY = {"win32": "kodliwe.dll", "darwin": "libkodliwe.dylib"}.get(sys.platform, "libkodliwe.so")
# Looks for the library that the module in a folder loads, other than one in that folder.
FINDING = "import sys; sys.path.insert(0, sys.argv[1]); import kodliwe; print(kodliwe._load()._name)"
LOADING = "import ctypes, sys; ctypes.CDLL(sys.argv[1]).kodliwe_is_symbol"
# The time of each packed file. It is fixed, so that two packings are the same.
TIME = (1980, 1, 1, 0, 0, 0)


def _fail(why: str) -> NoReturn:
    """Ends the build with one line, which pip shows."""
    sys.exit("%s: %s" % (NAME, why))


def _read(*names: str) -> bytes:
    with open(os.path.join(HERE, *names), "rb") as file:
        return file.read()


def _metadata() -> bytes:
    return METADATA.encode() + _read("README.md")


def _sources() -> str:
    """Returns the folder of the packages of Rust. Fails if it is not there."""
    places = [os.path.join(HERE, "rust"), os.path.join(HERE, "..", "..", "rust")]
    for place in places:
        if all(os.path.exists(os.path.join(place, name, "Cargo.toml")) for name in PACKAGES):
            return os.path.normpath(place)
    _fail("there is no source of libkodliwe in %s; KODLIWE_LIB=FILE names a library that is there" % " or ".join(places))


def _named(name: str) -> str:
    """Returns the library that KODLIWE_LIB names, as the file or its folder. Fails if it is not there."""
    place = os.path.abspath(name)
    names = (LIBRARY, "libkodliwe.so.0", "libkodliwe.so." + VERSION)
    for file in [os.path.join(place, name) for name in names] if os.path.isdir(place) else [place]:
        if os.path.isfile(file):
            return file
    _fail("KODLIWE_LIB names %s, where no library is" % place)


def _installed() -> Optional[str]:
    """Returns the library that the module would load without one of its own, if there is one."""
    with tempfile.TemporaryDirectory() as folder:
        shutil.copy(os.path.join(HERE, "kodliwe.py"), folder)
        ran = subprocess.run([sys.executable, "-c", FINDING, folder], stdout=subprocess.PIPE, stderr=subprocess.DEVNULL)
    return ran.stdout.decode().strip() if ran.returncode == 0 else None


def _built(folder: str) -> str:
    """Builds the library with cargo, whose lines are shown, and returns its file."""
    cargo = shutil.which("cargo")
    if cargo is None:
        _fail("no cargo, which builds libkodliwe: install Rust (https://rustup.rs), or name a library that is there by KODLIWE_LIB")
    manifest = os.path.join(_sources(), "kodliwe-capi", "Cargo.toml")
    words = [cargo, "build", "--release", "--locked", "--offline", "--manifest-path", manifest, "--target-dir", folder]
    if subprocess.run(words).returncode != 0:
        _fail("cargo did not build libkodliwe: its lines say why; KODLIWE_LIB=FILE names a library that is there")
    built = os.path.join(folder, "release", LIBRARY)
    if not os.path.exists(built):
        _fail("cargo built no %s for this machine" % LIBRARY)
    return built


def _library() -> Optional[bytes]:
    """Returns the library for the wheel, or None if it has none. Fails if this Python can't load it."""
    named = os.environ.get("KODLIWE_LIB")
    installed = None if named else _installed()
    if installed:
        print("kodliwe: the module will load %s, which is installed; so cargo builds none" % installed, flush=True)
        return None
    with tempfile.TemporaryDirectory() as folder:
        place = _named(named) if named else _built(folder)
        ran = subprocess.run([sys.executable, "-c", LOADING, place], stderr=subprocess.PIPE)
        if ran.returncode != 0:
            _fail("this Python can't load %s: %s" % (place, ran.stderr.decode(errors="replace").strip().split("\n")[-1]))
        with open(place, "rb") as file:
            return file.read()


def _platform() -> str:
    """Returns the platform's tag."""
    tag = sysconfig.get_platform()
    if sys.platform == "darwin":
        # Python may be for two processors, but the library is for one. pip knows no parts of macOS 11 and later.
        version, machine = [int(number) for number in tag.split("-")[1].split(".")], platform.machine()
        if version[0] > 10 or machine == "arm64":
            version = [max(version[0], 11), 0]
        tag = "macosx_%d_%d_%s" % (version[0], version[1], machine)
    return re.sub("[-.]", "_", tag)


def _entry(name: str, is_library: bool) -> zipfile.ZipInfo:
    entry = zipfile.ZipInfo(name, TIME)
    entry.compress_type = zipfile.ZIP_DEFLATED
    entry.external_attr = (0o100755 if is_library else 0o100644) << 16
    return entry


def prepare_metadata_for_build_wheel(metadata_directory: str, config_settings: Any = None) -> str:
    """Writes the wheel's metadata into a folder, and returns the name of its own folder."""
    os.makedirs(os.path.join(metadata_directory, DIST_INFO))
    with open(os.path.join(metadata_directory, DIST_INFO, "METADATA"), "wb") as file:
        file.write(_metadata())
    return DIST_INFO


def build_wheel(wheel_directory: str, config_settings: Any = None, metadata_directory: Optional[str] = None) -> str:
    """Writes the wheel into a folder, and returns its name."""
    library = _library()
    tag = "any" if library is None else _platform()
    files = [("kodliwe/__init__.py", _read("kodliwe.py")), ("kodliwe/__main__.py", MAIN), ("kodliwe/py.typed", b"")]
    files += [] if library is None else [("kodliwe/" + LIBRARY, library)]
    about = WHEEL % ("true" if library is None else "false", tag)
    files += [(DIST_INFO + "/METADATA", _metadata()), (DIST_INFO + "/WHEEL", about.encode())]
    record = ""
    for name, data in files:
        digest = base64.urlsafe_b64encode(hashlib.sha256(data).digest()).rstrip(b"=").decode()
        record += "%s,sha256=%s,%d\n" % (name, digest, len(data))
    files.append((DIST_INFO + "/RECORD", ("%s%s/RECORD,,\n" % (record, DIST_INFO)).encode()))
    packed = io.BytesIO()
    with zipfile.ZipFile(packed, "w") as archive:
        for name, data in files:
            archive.writestr(_entry(name, name.endswith(LIBRARY)), data)
    wheel = "%s-%s-py3-none-%s.whl" % (NAME, VERSION, tag)
    with open(os.path.join(wheel_directory, wheel), "wb") as file:
        file.write(packed.getvalue())
    return wheel


def _rust() -> Iterator[Tuple[str, str]]:
    """Yields the sources of the library: the place in the source package, and the file."""
    top = _sources()
    for package in (os.path.join(top, name) for name in PACKAGES):
        for folder, folders, names in os.walk(package):
            folders[:] = sorted(name for name in folders if folder != package or name not in ("target", "tests"))
            for name in sorted(names):
                file = os.path.join(folder, name)
                yield "rust/" + os.path.relpath(file, top).replace(os.sep, "/"), file


def build_sdist(sdist_directory: str, config_settings: Any = None) -> str:
    """Writes the source package into a folder, and returns its name."""
    folder = "%s-%s" % (NAME, VERSION)
    files: List[Tuple[str, bytes]] = [("PKG-INFO", _metadata())]
    for name in ("kodliwe.py", "packing.py", "pyproject.toml", "README.md", "tests/test_kodliwe.py"):
        files.append((name, _read(*name.split("/"))))
    for name, file in _rust():
        files.append((name, _read(file)))
    with tarfile.open(os.path.join(sdist_directory, folder + ".tar.gz"), "w:gz", format=tarfile.PAX_FORMAT) as packed:
        for name, data in files:
            entry = tarfile.TarInfo("%s/%s" % (folder, name))
            entry.size = len(data)
            packed.addfile(entry, io.BytesIO(data))
    return folder + ".tar.gz"
