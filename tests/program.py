#!/usr/bin/env python3
"""Tries both builds of the program kodliwe where `rt ci` can't: with files, pipes, full disks and long lines.

The builds are `proved`, which `make` makes, and `cargo`, which `cargo install --path rust/kodliwe-cli` makes. PROGRAMS in the environment,
or --programs, names some of them, or other files: PROGRAMS=proved,cargo=PATH.

It prints a line for each of these with each build, and at last how many passed:

  log           a byte of Latin-1 and a NUL in a log stay, and the symbols around them are demangled
  folded        -f and --fold print _ for generic arguments, of repeated symbols too, with the hash and without it
  reread        a symbol is cut where its references would have 384 times its bytes read again: in a text and as an argument, with
                each option, also where the input is cut
  inputs        several inputs in the order of the arguments, one of them without its last line feed
  words         -- and symbols that begin with -; 10,000 symbols as arguments
  symbols       an argument that is a symbol prints what the library says of the whole of it, with and without its underscores; any
                other is filtered
  lines         an argument after an input without a last line feed starts a line
  unknown       an argument that is not an option ends it with status 2 before anything is read
  missing       an input that does not exist, or is a directory, is named; the inputs before it are written; a name that is not
                printable is quoted, and a folder of --output that fails is named
  noted         an argument without a symbol that names a file: one note, with the output and the status unchanged
  standard      -o - is standard output, and a second -o is an error; as /dev/stdout and /dev/fd/1 it keeps its position
  full          /dev/full is reported, as the output and under --output
  closed        a pipe that its reader has closed ends it with status 0 and no message
  followed      finished lines are written while the input is still open
  replaced      --output replaces a file only when all is written, keeps its permissions, accepts an input as its own output,
                follows a link, and leaves no other file
  links         --output over links: they stay, and the file to which they lead is replaced or created; a loop, a link into a folder that
                is missing, and one to a file that was removed are errors
  foreign links a link of another user in a folder for all is followed only if the system does that
  signals       a signal ends the program while it filters: no new file is left; while it renames: the complete file is left
  owners        root replaces a file of another user: owner, group and permissions stay, and no bit of set-uid, set-gid or sticky; a
                user replaces a file of another user: the group stays if it is one of theirs, and otherwise the permissions narrow
  private       no other user may open the file that is written; the file with a name is private too until it is complete, or has the
                mode that `>` gives if FILE is new
  unwritable    a file that the user may not write is not replaced
  descriptors   each standard stream is closed alone, and all are: no file gets its descriptor, and a stream that is needed is an error
  kept          an error leaves the file of --output unchanged
  device        --output into a device and into a pipe writes in place
  interrupted   a signal that is caught interrupts reading and writing, and nothing is lost
  memory        a run under each limit of address space ends with all of the text or with one line and status 1
  requests      if an allocation fails, alone or with all later ones, it ends with one line and status 1; the written bytes are a
                prefix of the output, and the file of --output is unchanged, with no other next to it; a run without its memo is
                complete
  guarded       if fsync, rename, fchmod, statx or unlink fails under --output: one line, status 1, the file is unchanged, and no other
                is next to it but one that can't be removed; the file is synchronized before it gets its name
  full disk     no room for the file, or for its copy: one line, status 1, the file is unchanged, and no other is next to it
  names         150 names for the new file are taken, and then each: the line names the last
  waiting       an input that would have to wait is reported, and not read forever
  one call      each line of an error or a note is written by one call
  large         300,000 symbols, runs of 3 MB, a line of 5 MB, an argument of 130,000 bytes, a thousand files, a limit of 0
  long          a line of 1 GB without a line feed, within 8 MB of memory
  about         --man and --completions print the files of docs/ and completions/; no or another shell is an error
  help          --help has at most 24 lines of 80 columns, and names every option
  manual        docs/kodliwe.1 has each option and is laid out without a warning
  completions   bash, zsh and fish offer each option, and bash the files of an option after its =
  prompts       at the prompts of bash, zsh and fish: files after < and >, and no short options in one word
  filter        over the stored corpus and hostile symbols, each run has the output of demangle_filter, except for runs that
                begin with _RC, a _ before a run, and the paths that are cut earlier, of which there are 9 and 6
  preceded      runs that begin with _RC stay, and each other symbol is replaced after any byte, with one _ of macOS, also where the
                input is cut and in an argument; an argument that is a symbol as a whole prints its path
  underscored   lines of nm print the same with an underscore before each symbol, as macOS has them
  kinds         lines of nm, objdump, three linkers' maps, perf, backtraces, sanitizers and JSON: each real symbol of the corpus is
                replaced by its stored path
  same file     an input that is the file of standard output is an error before anything is read; with --output it is replaced
  terminal      a terminal as standard input is noted if there are no arguments
  marked        an input that begins as gzip, zstd, xz, lz4, bzip2 or UTF-16 is noted once, and copied with the same status; no other
                is noted, and no further bytes are read for it
  version       --version has the version, how the program was built, and the licence
  identified    two files are the same only if their devices and inodes are, and not if the system gives no inode
  no symbol     an argument in which a run starts and no symbol is, and which names a file, is noted; after an error none is
  readme        the commands of README that call the program print what README says
  tools         each symbol in what nm, objdump and two linkers write of debug builds is replaced
  sizes         the example of sizes prints what README says, over a debug build of the crate

`make` builds the programs. The last line is 'N passed, N failed'. A missing tool is a failure.
"""
import argparse, bz2, errno, fcntl, functools, gzip, lzma, os, pty, re, resource, select, shutil, signal, socket, stat, struct, subprocess
import sys, tempfile, termios, threading, time

import texts
from common import CORPUS, KODLIWE, ROOT, Lacking, Tally, built, same, tool
from rust_common import OUT, add_programs, chosen
from texts import hostile

FOO = "_ZN3foo17h05af221e174051e9E"
OPTIONS = "-i --input -o --output --hash -f --fold -l --limit --man --completions -h --help -V --version".split()
# The build that is tried: its name, and the file.
NOW = ["proved", KODLIWE]


def program():
    """Returns the file of the build that is tried."""
    return NOW[1]


def is_proved():
    return NOW[0] != "cargo"


def run(*words, text=b"", **more):
    """The output of a run, its lines on standard error, and its status."""
    ran = subprocess.run([program(), *words], input=text, stdout=subprocess.PIPE, stderr=subprocess.PIPE, timeout=120, **more)
    return ran.stdout, ran.stderr.decode(), ran.returncode


def write(name, text):
    with open(name, "wb") as file:
        file.write(text)
    return name


def read(name):
    with open(name, "rb") as file:
        return file.read()


def log():
    text = b"a %b\r\ncaf\xe9 \0 _RNvC5crate4main\0_ZN3barE\n\xff_ZN1aE" % FOO.encode()
    wanted = b"a foo\r\ncaf\xe9 \0 crate::main\0bar\n\xffa"
    same(run(text=text), (wanted, "", 0))
    same(run("--hash", text=text), (wanted.replace(b"foo", b"foo::h05af221e174051e9"), "", 0))


def folded():
    text = b"_RINvC3foo3barhE \xff_RNvMC3fooINtB2_3BarlE3baz _ZN3foo12Bar$LT$T$GT$17h05af221e174051e9E\n" * 3
    wanted = b"foo::bar::<_> \xff<foo::Bar<_>>::baz foo::Bar<T>\n" * 3
    for option in ["-f", "--fold"]:
        same(run(option, text=text), (wanted, "", 0))
        same(run("_RINvC3foo3barhE", option), (b"foo::bar::<_>\n", "", 0))
    same(run("--hash", "-f", text=text), (wanted.replace(b"Bar<T>", b"Bar<T>::h05af221e174051e9"), "", 0))
    same(run(text=text), (wanted.replace(b"::<_>", b"::<u8>").replace(b"Bar<_>", b"Bar<i32>"), "", 0))
    same(run("-f", "-l", "11", "_RINvC3foo3barhE"), (b"foo::bar::<{size limit reached}\n", "", 0))
    # In folded arguments no error is printed, so the parse goes on after them.
    same(run("_RNvIC1aL0_E1b"), (b"a::<'{invalid syntax}>::?\n", "", 0))
    same(run("-f", "_RNvIC1aL0_E1b"), (b"a::<_>::b\n", "", 0))


def reread():
    # The test `each_byte_of_a_symbol_allows_384` of demangle_vectors has the arithmetic.
    names = b"Nt" * 62 + b"C0" + b"0" * 62
    symbol = b"_RMC0TT%bE%bE" % (names + b"B4_" * 30, b"B3_" * 22)
    path = b"<(%b(%b{size limit reached}" % (b"(%b), " % (b", " * 30) * 22, b", " * 28)
    line = b"x %b y\n"
    for words in [[], ["-f"], ["--hash"], ["-f", "--hash"], ["-l", "1000000"]]:
        same(run(*words, symbol, line[:-1] % symbol), (path + b"\n" + line % path, "", 0))
        same(run(*words, text=line % symbol * 400), (line % path * 400, "", 0))


def inputs():
    write("one", b"1 _ZN3foo")
    write("two", b"E _ZN3fooE\n")
    same(run("-i", "one", "--input=two", text=b"x"), (b"1 _ZN3fooE foo\n", "", 0))
    same(run("-itwo", "x _ZN1aE", "-i", "-", "--input", "one", text=b"_ZN1bE\n"), (b"E foo\nx a\nb\n1 _ZN3foo", "", 0))
    same(run("-i", "-", "-", text=b"_ZN1bE"), (b"b", "", 0))


def words():
    same(run("--", "--hash", "-" + FOO, text=b"x"), (b"--hash\n-foo\n", "", 0))
    same(run(*[FOO] * 10000, text=b"x"), (b"foo\n" * 10000, "", 0))


def symbols():
    same(run("RNvC3foo3bar", "ZN3foo3barE", "__ZN3foo3barE", "__RNvC3foo3bar", "_ZN3foo3barE"), (b"foo::bar\n" * 5, "", 0))
    # The whole argument is the symbol, with a suffix that ThinLTO appended and with one that has another symbol in it.
    same(run("_ZN3fooE.llvm.9D1C9369@@16", "_ZN3fooE.a@_ZN3barE"), (b"foo\nfoo.a@_ZN3barE\n", "", 0))
    same(run(FOO[1:], "--hash"), (b"foo::h05af221e174051e9\n", "", 0))
    # A path is not escaped, for HTML or for a terminal, to which U+009B begins a control sequence.
    same(run("_RINvC3foo3barhE", "_RNvC3foou11a31mred_hga"), ("foo::bar::<u8>\nfoo::a\u009b31mred\n".encode(), "", 0))
    same(run("-f", "RINvC3foo3barhE"), (b"foo::bar::<_>\n", "", 0))
    same(run("-l", "0", "RNvC3foo3bar", "__ZN3fooE"), (b"{size limit reached}\n" * 2, "", 0))
    # What is no symbol as a whole is filtered: text around a symbol, and text that only begins as one.
    others = ["x _ZN3foo3barE y", "RNvC3foo3bar x", "Rust", "ZN", "", "_ZN3fooE _RNvC3foo3bar"]
    same(run("--", *others), (b"x foo::bar y\nRNvC3foo3bar x\nRust\nZN\n\nfoo foo::bar\n", "", 0))


def lines():
    write("cut", b"x _ZN1aE")
    write("whole", b"y\n")
    write("empty", b"")
    same(run("-i", "cut", FOO, "-i", "cut", "-i", "whole", FOO), (b"x a\nfoo\nx ay\nfoo\n", "", 0))
    same(run("-i", "whole", FOO, "-i", "empty", FOO, "-i", "cut"), (b"y\nfoo\nfoo\nx a", "", 0))
    same(run("-", FOO, text=b"_ZN1bE"), (b"b\nfoo\n", "", 0))
    same(run("-", "-i", "cut", text=b"_ZN1bE"), (b"bx a", "", 0))


def unknown():
    for word in ["--frob", "-x", "--hash=1"]:
        before = run_from_file(["-i", "nothing", word], b"_ZN3fooE")
        same(before, (b"", "kodliwe: unknown option '%s'; try 'kodliwe --help'\n" % word, 2, 0))
    same(run("-i"), (b"", "kodliwe: option '-i' needs a FILE; try 'kodliwe --help'\n", 2))
    same(run(b"\xff"), (b"", "kodliwe: a word is not UTF-8; try 'kodliwe --help'\n", 2))


def run_from_file(words, text):
    """The same over standard input from a file, and how much of that was read."""
    with open(write("input", text), "rb") as file:
        ran = subprocess.run([program(), *words], stdin=file, stdout=subprocess.PIPE, stderr=subprocess.PIPE, timeout=120)
        return ran.stdout, ran.stderr.decode(), ran.returncode, os.lseek(file.fileno(), 0, os.SEEK_CUR)


def missing():
    same(run("_ZN1aE", "-i", "none.txt", "_ZN1bE"), (b"a\n", "kodliwe: none.txt: No such file or directory\n", 1))
    os.mkdir("folder")
    same(run("_ZN1aE", "-i", "folder"), (b"a\n", "kodliwe: folder: Is a directory\n", 1))
    same(run("-o", "none/out", "_ZN1aE"), (b"", "kodliwe: none: No such file or directory\n", 1))
    write("plain", b"")
    same(run("-o", "plain/out", "_ZN1aE"), (b"", "kodliwe: plain: Not a directory\n", 1))
    same(run("-i", "", "_ZN1aE"), (b"", "kodliwe: '': No such file or directory\n", 1))
    same(run("-i", "a\x1b[1m"), (b"", "kodliwe: 'a\\u{1b}[1m': No such file or directory\n", 1))
    # A quote and a backslash are printable, and are only escaped beside what is not.
    for name in ["it's", 'a "name"', "a\\b", "\\'\"", "äöü ☃"]:
        same(run("-i", name), (b"", "kodliwe: %s: No such file or directory\n" % name, 1))
    same(run("-i", "it's\t\\"), (b"", "kodliwe: 'it\\'s\\t\\\\': No such file or directory\n", 1))
    same(run("-o", "folder", "_ZN1aE"), (b"", "kodliwe: folder: Is a directory\n", 1))
    with open("folder/../closed", "wb") as file:
        ran = subprocess.run([program()], stdin=file, stdout=subprocess.PIPE, stderr=subprocess.PIPE, timeout=120)
    same((ran.stdout, ran.stderr, ran.returncode), (b"", b"kodliwe: standard input: Bad file descriptor\n", 1))


def noted():
    write("crash.txt", b"at _ZN1aE")
    note = "kodliwe: note: 'crash.txt' is a file; use -i to read it\n"
    same(run("crash.txt"), (b"crash.txt\n", note, 0))
    same(run("_ZN1aE", "crash.txt", "_ZN1bE"), (b"a\ncrash.txt\nb\n", note, 0))
    same(run("crash.txt", "-o", "noted"), (b"", note, 0))
    same(read("noted"), b"crash.txt\n")
    same(run("-i", "crash.txt"), (b"at a", "", 0))
    # Only the first argument without a symbol is looked up, and a folder is not a file.
    same(run("none.txt", "crash.txt"), (b"none.txt\ncrash.txt\n", "", 0))
    os.mkdir("crashes")
    same(run("crashes"), (b"crashes\n", "", 0))
    write("line\nfeed", b"")
    same(run("line\nfeed"), (b"line\nfeed\n", "kodliwe: note: 'line\\nfeed' is a file; use -i to read it\n", 0))
    write("it's \\", b"")
    same(run("it's \\"), (b"it's \\\n", "kodliwe: note: 'it's \\' is a file; use -i to read it\n", 0))
    write("_ZN1aE", b"")
    same(run("_ZN1aE"), (b"a\n", "", 0))


def standard_output():
    same(run("-o", "-", FOO), (b"foo\n", "", 0))
    same(run("--output=-", "-i", "-", text=b"_ZN1aE"), (b"a", "", 0))
    assert not os.path.exists("-")
    twice = "kodliwe: option '%s' may be given once; try 'kodliwe --help'\n"
    same(run("-o", "one", "-o", "two", FOO), (b"", twice % "-o", 2))
    same(run("-o-", "--output", "two", FOO), (b"", twice % "--output", 2))
    assert not os.path.exists("one") and not os.path.exists("two")


def position():
    """Writes to standard output at its position, by each of its names."""
    for name in ["/dev/stdout", "/dev/fd/1", "/proc/self/fd/1", "-"]:
        script = '(echo before; "%s" -o %s %s; echo after) > out' % (program(), name, FOO)
        subprocess.run(["sh", "-c", script], check=True, timeout=20)
        same(read("out"), b"before\nfoo\nafter\n")
    line = "kodliwe: %s: input file is output file\n"
    same(run_onto("out", "-i", "out", "-o", "/dev/stdout"), (line % "out", 1, b"before\nfoo\nafter\n"))


def full():
    line = "kodliwe: write failed: No space left on device\n"
    for words in [[FOO], ["--help"], ["--version"], ["--man"], ["--completions", "zsh"]]:
        with open("/dev/full", "wb") as file:
            ran = subprocess.run([program(), *words], stdout=file, stderr=subprocess.PIPE, timeout=120)
        same((ran.stderr.decode(), ran.returncode), (line, 1))
    same(run("-o", "/dev/full", FOO), (b"", line, 1))
    assert stat.S_ISCHR(os.stat("/dev/full").st_mode)


def closed():
    text = write("log", (b"x %b y\n" % FOO.encode()) * 100000)
    for words in [["-i", text], ["--help"], ["--man"], ["--completions=fish"]]:
        reader, writer = os.pipe()
        os.close(reader)
        ran = subprocess.run([program(), *words], stdout=writer, stderr=subprocess.PIPE, timeout=120)
        os.close(writer)
        same((ran.stderr, ran.returncode), (b"", 0))
    ran = subprocess.Popen([program(), "-i", text], stdout=subprocess.PIPE, stderr=subprocess.PIPE)
    same(ran.stdout.readline(), b"x foo y\n")
    ran.stdout.close()
    same((ran.stderr.read(), ran.wait(120)), (b"", 0))
    ran.stderr.close()


def followed():
    ran = subprocess.Popen([program()], stdin=subprocess.PIPE, stdout=subprocess.PIPE)
    for text, wanted in [(b"_ZN3fooE\n", b"foo\n"), (b"x _ZN1", b"x "), (b"aE\n", b"a\n"), (b"caf\xe9 ", b"caf\xe9 ")]:
        ran.stdin.write(text)
        ran.stdin.flush()
        same(os.read(ran.stdout.fileno(), 100), wanted)
    ran.stdin.close()
    same((ran.stdout.read(), ran.wait(120)), (b"", 0))
    ran.stdout.close()


def replaced():
    os.mkdir("replaced")
    name = write("replaced/out", b"old")
    os.chmod(name, 0o640)
    same(run("-o", name, FOO), (b"", "", 0))
    same(read(name), b"foo\n")
    same(stat.S_IMODE(os.stat(name).st_mode), 0o640)
    write(name, b"_ZN3barE _ZN1aE\n")
    same(run("-o", name, "-i", name), (b"", "", 0))
    same(read(name), b"bar a\n")
    os.symlink("out", "replaced/link")
    same(run("-oreplaced/link", "_ZN1bE"), (b"", "", 0))
    same(read(name), b"b\n")
    assert os.path.islink("replaced/link")
    write("replaced/new.kodliwe-0", b"of another run")
    same(run("--output=replaced/new", "_ZN1bE"), (b"", "", 0))
    same((read("replaced/new"), read("replaced/new.kodliwe-0")), (b"b\n", b"of another run"))
    same(sorted(os.listdir("replaced")), ["link", "new", "new.kodliwe-0", "out"])


def links():
    os.mkdir("links")
    os.mkdir("links/far")
    os.chdir("links")
    # Each link, what it says, and the file that is created.
    for link, target, found in [
        ("near", "made", "made"),
        ("deep", "far/made", "far/made"),
        ("far/up", "../up", "up"),
        ("whole", os.path.abspath("far/whole"), "far/whole"),
        ("first", "far/second", "far/third"),
    ]:
        os.symlink("third", "far/second") if link == "first" else None
        os.symlink(target, link)
        for text in [b"foo\n", b"a\n"]:
            same(run("-o", link, "_ZN3fooE" if text == b"foo\n" else "_ZN1aE"), (b"", "", 0))
            same((os.readlink(link), os.path.islink(found), read(found)), (target, False, text))
        os.chmod(found, 0o604)
        same(run("-o", link, "-i", link), (b"", "", 0))
        same((read(found), stat.S_IMODE(os.stat(found).st_mode)), (b"a\n", 0o604))
    made = ["far", "near", "deep", "whole", "first", "made", "up"], ["up", "made", "whole", "second", "third"]
    same((sorted(os.listdir(".")), sorted(os.listdir("far"))), tuple(map(sorted, made)))
    # From another folder, and to nothing but the mode that the system gives.
    os.symlink("new", "far/new_link")
    old = os.umask(0o026)
    try:
        same(run("-o", "links/far/new_link", FOO, cwd=".."), (b"", "", 0))
    finally:
        os.umask(old)
    same((read("far/new"), stat.S_IMODE(os.stat("far/new").st_mode)), (b"foo\n", 0o640))
    # Each error says what is in the way, and changes nothing.
    before = sorted(os.listdir(".")), sorted(os.listdir("far"))
    os.symlink("self", "self"), os.symlink("two", "one"), os.symlink("one", "two")
    os.symlink("none/made", "no_folder"), os.symlink("far/gone/made", "far_folder"), os.symlink("made/x", "no_file")
    os.symlink("no_folder", "to_none")
    for link, line in [
        ("self", "self: Too many levels of symbolic links"),
        ("one", "one: Too many levels of symbolic links"),
        ("to_none", "none: No such file or directory"),
        ("no_folder", "none: No such file or directory"),
        ("far_folder", "far/gone: No such file or directory"),
        ("no_file", "made: Not a directory"),
    ]:
        same(run("-o", link, FOO), (b"", "kodliwe: %s\n" % line, 1))
        assert os.path.islink(link), link
        os.remove(link)
    os.remove("two")
    same((sorted(os.listdir(".")), sorted(os.listdir("far"))), before)
    gone = os.open("gone", os.O_RDWR | os.O_CREAT)
    os.remove("gone")
    line = "kodliwe: %s (deleted): No such file or directory\n" % os.path.abspath("gone")
    same(run("-o", "/dev/fd/%d" % gone, FOO, pass_fds=[gone]), (b"", line, 1))
    same((os.fstat(gone).st_size, sorted(os.listdir("."))), (0, before[0]))
    os.close(gone)


def foreign_links():
    """Follows a link of another user in a folder for all only if the system does, as for `>`."""
    if os.geteuid() != 0:
        raise Lacking("no root, which alone has files of two users")
    os.mkdir("shared")
    os.chmod("shared", 0o1777)
    os.symlink("made", "shared/link")
    os.lchown("shared/link", NOBODY, NOBODY)
    follows = subprocess.run(["sh", "-c", "> shared/link"], stderr=subprocess.DEVNULL).returncode == 0
    same(os.path.exists("shared/made"), follows)
    for made in [False, True]:
        text = write("shared/made", b"old") if made else None
        os.remove("shared/made") if follows and not made else None
        line = "" if follows else "kodliwe: shared/link: Permission denied\n"
        same(run("-o", "shared/link", FOO), (b"", line, 0 if follows else 1))
        same(os.listdir("shared").count("made"), 1 if follows or text else 0)
        same(read("shared/made") if os.path.exists("shared/made") else None, b"foo\n" if follows else text and b"old")
        assert os.path.islink("shared/link")
    return "the system %s them" % ("follows" if follows else "does not follow")


def end_by(number):
    """Returns what lets this signal end a new process, though this one may ignore it."""
    return lambda: signal.signal(number, signal.SIG_DFL) if number != signal.SIGKILL else None


def files_of(folder):
    return {name: read(os.path.join(folder, name)) for name in os.listdir(folder) if os.path.exists(os.path.join(folder, name))}


def signals():
    os.mkfifo("fifo")
    for number in [signal.SIGINT, signal.SIGTERM, signal.SIGHUP, signal.SIGQUIT, signal.SIGKILL]:
        for name in ["out", "new", "link", "dangling"]:
            shutil.rmtree("signals", ignore_errors=True)
            os.mkdir("signals")
            write("signals/out", b"old")
            os.symlink("out", "signals/link"), os.symlink("new", "signals/dangling")
            ran = subprocess.Popen([program(), "-i", "fifo", "-o", "signals/" + name], preexec_fn=end_by(number), cwd=".")
            with open_fifo("fifo", ran) as file:
                file.write(b"_ZN1aE\n" * 100_000)
                file.flush()
                opened = unnamed_file(ran.pid)
                until = time.monotonic() + 20
                while os.stat(opened).st_size == 0:
                    assert time.monotonic() < until, "nothing is written"
                ran.send_signal(number)
                same(ran.wait(20), -number)
            same(files_of("signals"), {"out": b"old", "link": b"old"})
            same(sorted(os.listdir("signals")), ["dangling", "link", "out"])
    # In the last moment the new file has a name. It is complete then, and is in nobody's way.
    build_guard()
    write("signals/out", b"old")
    for left in range(1, 4):
        env = guard_env("none", KILLED="fsync")
        same(run("-o", "signals/out", FOO, env=env, preexec_fn=end_by(signal.SIGTERM)), (b"", "", -signal.SIGTERM))
        found = files_of("signals")
        same((found["out"], found["out.kodliwe-%d" % (left - 1)], len(os.listdir("signals"))), (b"old", b"foo\n", 3 + left))
    same(run("-o", "signals/out", "_ZN1aE"), (b"", "", 0))
    same((read("signals/out"), len(os.listdir("signals"))), (b"a\n", 6))


NOBODY = 65534


def as_user(groups=()):
    """Returns what makes a new process one of another user, with these groups besides its own."""

    def become():
        os.setgroups(groups)
        os.setgid(NOBODY)
        os.setuid(NOBODY)

    return become


def owned(name, text, mode, owner, group):
    """Writes a file of this owner and group."""
    write(name, text)
    os.chown(name, owner, group)
    os.chmod(name, mode)


def owner_of(name):
    """Returns the owner, the group and the mode of a file."""
    found = os.stat(name)
    return found.st_uid, found.st_gid, stat.S_IMODE(found.st_mode)


def owners():
    if os.geteuid() != 0:
        raise Lacking("no root, which alone has files of two users")
    os.mkdir("owners")
    os.chmod(".", 0o755)
    os.chown("owners", NOBODY, NOBODY)
    shutil.copy(program(), "kodliwe")
    # Root: all is kept but for the special bits.
    for mode in [0o4755, 0o2755, 0o1755, 0o6777, 0o600, 0o640, 0o444, 0o664, 0o000]:
        owned("owners/out", b"_ZN1aE\n", mode, NOBODY, 1234)
        same(run("-i", "owners/out", "-o", "owners/out"), (b"", "", 0))
        same((read("owners/out"), owner_of("owners/out")), (b"a\n", (NOBODY, 1234, mode & 0o777)))
    # Another user: the owner is not kept. The group is, if it is one of the user's.
    for mode, group, groups, wanted in [
        (0o660, 1234, [1234], (NOBODY, 1234, 0o660)),
        (0o664, NOBODY, [], (NOBODY, NOBODY, 0o664)),
        (0o4775, 1234, [1234], (NOBODY, 1234, 0o775)),
        (0o666, 1234, [], (NOBODY, NOBODY, 0o666)),
        (0o646, 1234, [], (NOBODY, NOBODY, 0o644)),
        (0o676, 1234, [], (NOBODY, NOBODY, 0o666)),
        (0o2767, 1234, [], (NOBODY, NOBODY, 0o766)),
        (0o602, 1234, [], (NOBODY, NOBODY, 0o600)),
    ]:
        owned("owners/out", b"old", mode, 0, group)
        ran = subprocess.run(["./kodliwe", "-o", "owners/out", FOO], stderr=subprocess.PIPE, preexec_fn=as_user(groups), timeout=20)
        same((ran.stderr, ran.returncode, read("owners/out"), owner_of("owners/out")), (b"", 0, b"foo\n", wanted))
    same(os.listdir("owners"), ["out"])


def unwritable():
    if os.geteuid() == 0:
        os.chmod(".", 0o755)
        shutil.copy(program(), "kodliwe")
        command, become, owner = "./kodliwe", as_user(), NOBODY
    else:
        command, become, owner = program(), None, os.geteuid()
    os.mkdir("folder")
    os.chown("folder", owner, -1)
    for mode in [0o444, 0o400, 0o555]:
        write("folder/out", b"old")
        os.chown("folder/out", owner, -1)
        os.chmod("folder/out", mode)
        ran = subprocess.run([command, "-o", "folder/out", FOO], stderr=subprocess.PIPE, preexec_fn=become, timeout=20)
        same((ran.stderr, ran.returncode), (b"kodliwe: folder/out: Permission denied\n", 1))
        same((read("folder/out"), stat.S_IMODE(os.stat("folder/out").st_mode), os.listdir("folder")), (b"old", mode, ["out"]))
        os.remove("folder/out")


def unnamed_file(pid):
    """Waits until a process has opened a regular file and removed its name, and returns the path of its descriptor."""
    until = time.monotonic() + 20
    folder = "/proc/%d/fd/" % pid
    while time.monotonic() < until:
        for number in os.listdir(folder):
            if re.search(r"\.kodliwe-[0-9]+ \(deleted\)$", os.readlink(folder + number)):
                return folder + number
        time.sleep(0.001)
    raise AssertionError("no file without a name is open")


def open_fifo(name, reader):
    """Opens a pipe with a name, to write to it, as soon as the process reads it."""
    until = time.monotonic() + 20
    while time.monotonic() < until and reader.poll() is None:
        try:
            number = os.open(name, os.O_WRONLY | os.O_NONBLOCK)
            os.set_blocking(number, True)
            return os.fdopen(number, "wb")
        except OSError as error:
            assert error.errno == errno.ENXIO, error
        time.sleep(0.001)
    raise AssertionError("%s is not read" % name)


def private():
    os.mkdir("private")
    os.mkfifo("fifo")
    old = os.umask(0)
    try:
        os.chmod(write("private/out", b"old"), 0o666)
        for name, before in [("out", ["out"]), ("new", ["out"])]:
            ran = subprocess.Popen([program(), "-i", "fifo", "-o", "private/" + name])
            with open_fifo("fifo", ran) as file:
                file.write(b"_ZN1aE\n")
                same(stat.S_IMODE(os.stat(unnamed_file(ran.pid)).st_mode), 0o600)
                same(os.listdir("private"), before)
            same((ran.wait(20), read("private/" + name)), (0, b"a\n"))
            same(stat.S_IMODE(os.stat("private/" + name).st_mode), 0o666)
    finally:
        os.umask(old)


def run_closed(closed, *words):
    """Returns the results of a run in which these standard streams are closed."""

    def close():
        for number in closed:
            os.close(number)

    how = dict(stdin=subprocess.DEVNULL, stdout=subprocess.PIPE, stderr=subprocess.PIPE)
    ran = subprocess.run([program(), *words], preexec_fn=close, timeout=20, **how)
    return ran.stdout, ran.stderr.decode(), ran.returncode


def descriptors():
    packed = write("packed", gzip.compress(b"text"))
    note = "kodliwe: note: packed looks compressed (gzip); decompress it first\n"
    for closed in [(0,), (1,), (2,), (0, 1), (0, 2), (1, 2), (0, 1, 2)]:
        for words in (["-i", packed, "-o", "out"], ["-o", "out", "-i", packed, "-i", packed]):
            write("out", b"old")
            same(run_closed(closed, *words), (b"", note * (words.count("-i")) if 2 not in closed else "", 0))
            same(read("out"), read(packed) * words.count("-i"))
        line = "" if 2 in closed else "kodliwe: write failed: Bad file descriptor\n"
        same(run_closed(closed, FOO), (b"", line, 1) if 1 in closed else (b"foo\n", "", 0))
        same(run_closed(closed, "--version")[2], 1 if 1 in closed else 0)
        if 0 in closed:
            line = "" if 2 in closed else "kodliwe: standard input: Bad file descriptor\n"
            same(run_closed(closed), (b"", line, 1))
    same(sorted(os.listdir(".")), ["out", "packed"])


def kept():
    os.mkdir("kept")
    name = write("kept/out", b"old")
    same(run("-o", name, FOO, "-i", "kept/none"), (b"", "kodliwe: kept/none: No such file or directory\n", 1))
    same(run("-o", name, FOO, "--frob")[2], 2)
    text = write("long", b"x" * 300000)
    # A file may have 200,000 bytes, and the signal at that size is ignored. So writing fails in the middle.
    small = lambda: (resource.setrlimit(resource.RLIMIT_FSIZE, (200000, 200000)), signal.signal(signal.SIGXFSZ, signal.SIG_IGN))
    same(run("-o", name, "-i", text, preexec_fn=small), (b"", "kodliwe: write failed: File too large\n", 1))
    same((read(name), os.listdir("kept")), (b"old", ["out"]))


def device():
    same(run("-o", "/dev/null", FOO), (b"", "", 0))
    assert stat.S_ISCHR(os.stat("/dev/null").st_mode)
    same(run("-o", "/dev/stdout", FOO), (b"foo\n", "", 0))
    os.mkfifo("fifo")
    ran = subprocess.Popen([program(), "-o", "fifo", FOO])
    same(read("fifo"), b"foo\n")
    same(ran.wait(120), 0)


def interrupted():
    # A program that catches a signal without SA_RESTART starts kodliwe's work as a child would: kodliwe itself catches none,
    # so the signals are those that stop and continue it, at which a call on a pipe that waits is made again.
    ran = subprocess.Popen([program()], stdin=subprocess.PIPE, stdout=subprocess.PIPE)
    for _ in range(20):
        os.kill(ran.pid, signal.SIGSTOP)
        os.kill(ran.pid, signal.SIGCONT)
        time.sleep(0.005)
        ran.stdin.write(b"_ZN3fooE\n")
        ran.stdin.flush()
    out, _ = ran.communicate(timeout=120)
    same((out, ran.returncode), (b"foo\n" * 20, 0))


def memory():
    text = b"x " + b"_ZN" + b"3foo" * 50000 + b"E\n"
    wanted = b"x " + b"::".join([b"foo"] * 50000) + b"\n"
    ended = set()
    for pages in range(300, 900, 7):
        limit = lambda: resource.setrlimit(resource.RLIMIT_AS, (pages * 4096, pages * 4096))
        ran = subprocess.run([program()], input=text, stdout=subprocess.PIPE, stderr=subprocess.PIPE, timeout=120, preexec_fn=limit)
        if ran.returncode in (127, -signal.SIGSEGV, -signal.SIGKILL):
            continue  # the system could not start it
        found = (ran.stdout, ran.stderr, ran.returncode)
        assert found in [
            (wanted, b"", 0),
            (b"x ", b"kodliwe: out of memory\n", 1),
            (b"", b"kodliwe: out of memory\n", 1),
        ], "%d pages: %.200r" % (pages, found)
        ended.add(found[2])
    same(ended, {0, 1})


# Lets the allocations from FIRST to LAST fail. It writes into the file COUNT how many there were, and the size of the first that
# failed.
REFUSING = r"""
#define _GNU_SOURCE
#include <dlfcn.h>
#include <stdio.h>
#include <stdlib.h>

static unsigned long count, first, last, refused;

__attribute__((constructor)) static void begin(void) {
    first = strtoul(getenv("FIRST"), NULL, 10);
    last = strtoul(getenv("LAST"), NULL, 10);
    count = refused = 0;
}

static int is_refused(size_t size) {
    ++count;
    if (count < first || last < count)
        return 0;
    refused = refused ? refused : size;
    return 1;
}

void *malloc(size_t size) {
    void *(*real)(size_t) = (void *(*)(size_t))dlsym(RTLD_NEXT, "malloc");
    return is_refused(size) ? NULL : real(size);
}

void *realloc(void *old, size_t size) {
    void *(*real)(void *, size_t) = (void *(*)(void *, size_t))dlsym(RTLD_NEXT, "realloc");
    return is_refused(size) ? NULL : real(old, size);
}

__attribute__((destructor)) static void end(void) {
    unsigned long made = count;
    last = 0;
    FILE *file = fopen(getenv("COUNT"), "w");
    fprintf(file, "%lu %lu", made, refused);
    fclose(file);
}
"""


def run_refusing(first, last, words, text):
    """Returns the results of a run in which these allocations fail, with the files of its folder; how many it made; and the size of the
    first that failed."""
    shutil.rmtree("refusing", ignore_errors=True)
    os.mkdir("refusing")
    write("refusing/in", b"_ZN1bE\n")
    write("refusing/out", b"old")
    env = dict(LD_PRELOAD=os.path.abspath("refuse.so"), FIRST=str(first), LAST=str(last), COUNT="count")
    # From a file, since the chunks of a pipe, and so the allocations, depend on the load.
    with open(write("given", text), "rb") as given:
        found = run(*words, text=None, stdin=given, env=env)
    return (*found, {name: read("refusing/" + name) for name in os.listdir("refusing")}), *map(int, read("count").split())


# The sizes of a memo's allocations: of its fingerprints, and of its buffer as it grows. A run in which one fails is complete: it finds no
# symbol again, or writes a symbol in parts.
MEMO_SIZES = {4 * 8192, 1_024_000, *(1024 << step for step in range(9))}


def requests():
    write("refuse.c", REFUSING.encode())
    subprocess.run([tool("cc"), "-O1", "-shared", "-fPIC", "refuse.c", "-o", "refuse.so", "-ldl"], check=True)
    long_symbol = b"x _ZN" + b"3foo" * 50000 + b"E"
    cases = [
        ([], b"_ZN3fooE\n"),
        ([], long_symbol),
        ([FOO, "_ZN1aE"], b""),
        (["-i", "refusing/in", FOO, "-i", "refusing/in"], b""),
        (["-o", "refusing/out", FOO], b""),
        (["-o", "refusing/new", FOO, "-i", "refusing/in"], b""),
        (["-o", "/dev/full", FOO], b""),
        (["-i", "refusing/none"], b""),
        (["-i", "refusing"], b""),
        (["--frob"], b""),
        (["-l", "x"], b""),
        (["--help"], b""),
    ]
    tried = 0
    for words, text in cases:
        whole, count, _ = run_refusing(1, 0, words, text)
        refused = {("kodliwe: %sout of memory\n" % name, 1) for name in ["", *(word + ": " for word in words)]}
        # The unused end of the arguments' memory is given back. If that fails, nothing is lost.
        for most, ends in [(0, lambda number: 10**9), (1, lambda number: number)]:
            unharmed = 0
            for number in range(1, count + 1):
                found, _, size = run_refusing(number, ends(number), words, text)
                unharmed += found == whole and size not in MEMO_SIZES
                assert found == whole or (
                    whole[0].startswith(found[0]) and found[1:3] in refused and found[3] == {"in": b"_ZN1bE\n", "out": b"old"}
                ), "%r, request %d: %.300r" % (words, number, found)
            assert unharmed <= most, "%r: %d refused requests were not told" % (words, unharmed)
            tried += count
    return "%d runs" % tried


# Lets the call fail that the variable REFUSED names, or ends the program at the one that KILLED names. It adds a line to the file
# CALLS for each of these calls, with the mode of the file. It also lets each open fail of a path with the text TAKEN.
GUARDED = r"""
#define _GNU_SOURCE
#include <dlfcn.h>
#include <errno.h>
#include <fcntl.h>
#include <signal.h>
#include <stdarg.h>
#include <string.h>
#include <stdio.h>
#include <stdlib.h>
#include <sys/stat.h>
#include <unistd.h>

static int is_refused(const char *call, int error, int named) {
    struct stat found = {0};
    FILE *file = fopen(getenv("CALLS"), "a");
    if (named >= 0)
        fstat(named, &found);
    fprintf(file, "%s %o\n", call, found.st_mode & 07777);
    fclose(file);
    if (strcmp(getenv("KILLED"), call) == 0)
        raise(SIGTERM);
    errno = error;
    return strcmp(getenv("REFUSED"), call) == 0;
}

static int open_untaken(const char *name, const char *path, int flags, unsigned mode) {
    int (*real)(const char *, int, unsigned) = (int (*)(const char *, int, unsigned))dlsym(RTLD_NEXT, name);
    if (*getenv("TAKEN") && strstr(path, getenv("TAKEN"))) {
        errno = EEXIST;
        return -1;
    }
    return real(path, flags, mode);
}

int open(const char *path, int flags, ...) {
    va_list rest;
    va_start(rest, flags);
    unsigned mode = va_arg(rest, unsigned);
    va_end(rest);
    return open_untaken("open", path, flags, mode);
}

int open64(const char *path, int flags, ...) {
    va_list rest;
    va_start(rest, flags);
    unsigned mode = va_arg(rest, unsigned);
    va_end(rest);
    return open_untaken("open64", path, flags, mode);
}

int unlink(const char *path) {
    int (*real)(const char *) = (int (*)(const char *))dlsym(RTLD_NEXT, "unlink");
    return is_refused("unlink", EPERM, -1) ? -1 : real(path);
}

int fsync(int file) {
    int (*real)(int) = (int (*)(int))dlsym(RTLD_NEXT, "fsync");
    return is_refused("fsync", EIO, file) ? -1 : real(file);
}

int rename(const char *from, const char *to) {
    int (*real)(const char *, const char *) = (int (*)(const char *, const char *))dlsym(RTLD_NEXT, "rename");
    return is_refused("rename", EACCES, -1) ? -1 : real(from, to);
}

int fchmod(int file, mode_t mode) {
    int (*real)(int, mode_t) = (int (*)(int, mode_t))dlsym(RTLD_NEXT, "fchmod");
    return is_refused("fchmod", EPERM, file) ? -1 : real(file, mode);
}

int statx(int folder, const char *path, int flags, unsigned mask, struct statx *found) {
    int (*real)(int, const char *, int, unsigned, struct statx *) =
        (int (*)(int, const char *, int, unsigned, struct statx *))dlsym(RTLD_NEXT, "statx");
    return is_refused("statx", EACCES, -1) ? -1 : real(folder, path, flags, mask, found);
}
"""
# The file or folder that the line names if a call fails, why, and the files that are left.
REASONS = {
    "fsync": ("guarded/out", "Input/output error", {}),
    "rename": ("guarded/out", "Permission denied", {}),
    "fchmod": ("guarded/out", "Operation not permitted", {}),
    "statx": ("guarded", "Permission denied", {}),
    "unlink": ("guarded/out.kodliwe-0", "Operation not permitted", {"out.kodliwe-0": b""}),
}


def build_guard():
    write("guard.c", GUARDED.encode())
    subprocess.run([tool("cc", "gcc"), "-O1", "-shared", "-fPIC", "guard.c", "-o", "guard.so", "-ldl"], check=True)


def guard_env(refused, **more):
    """Returns the environment in which this call fails."""
    write("calls", b"")
    env = dict(LD_PRELOAD=os.path.abspath("guard.so"), REFUSED=refused, KILLED="", TAKEN="", CALLS=os.path.abspath("calls"))
    return dict(env, **more)


def run_guarded(refused, name="out"):
    """Returns the results of a run over a file in which the call failed, the files of its folder, and the calls in their order, with
    the mode of the file."""
    shutil.rmtree("guarded", ignore_errors=True)
    os.mkdir("guarded")
    os.chmod(write("guarded/out", b"old"), 0o640)
    found = run("-o", "guarded/" + name, FOO, env=guard_env(refused))
    return found, files_of("guarded"), read("calls").decode().splitlines()


def guarded():
    build_guard()
    old = os.umask(0o026)
    try:
        # Before it is complete, only its owner may open a file that replaces one.
        for name, wanted in [("out", ["unlink 0", "fchmod 600", "fsync 640", "rename 0"]), ("new", ["unlink 0", "fsync 640", "rename 0"])]:
            found, files, calls = run_guarded("none", name)
            same((found, files), ((b"", "", 0), {"out": b"old", name: b"foo\n"}))
            same(stat.S_IMODE(os.stat("guarded/" + name).st_mode), 0o640)
            same([call for call in calls if not call.startswith("statx")], wanted)
    finally:
        os.umask(old)
    # Rust's library calls statx by its number, where no other function can take its place.
    reasons = {call: reason for call, reason in REASONS.items() if is_proved() or call != "statx"}
    for refused, (name, reason, left) in reasons.items():
        found, files, calls = run_guarded(refused)
        same(found, (b"", "kodliwe: %s: %s\n" % (name, reason), 1))
        same(files, dict(left, out=b"old"))
        assert refused in [call.split()[0] for call in calls], calls
    return "%d calls refused" % len(reasons)


def full_disk():
    """Fills a disk of 1 MB: with the file that has no name, and with the copy that has one."""
    if os.geteuid() != 0:
        raise Lacking("no root, which alone mounts a disk")
    tool("unshare", "util-linux")
    os.mkdir("disk")
    script = 'mount -t tmpfs -o size=1M none disk && printf old > disk/out && "$@"; echo $?; ls disk; cat disk/out'
    for size, line in [(2_000_000, "kodliwe: write failed: %s\n"), (700_000, "kodliwe: disk/out: %s\n"), (400_000, "")]:
        text = write("text", b"x" * size)
        words = ["unshare", "-m", "sh", "-c", script, "sh", program(), "-i", text, "-o", "disk/out"]
        ran = subprocess.run(words, stdout=subprocess.PIPE, stderr=subprocess.PIPE, timeout=60)
        told = line % "No space left on device" if line else ""
        same(ran.stderr.decode(), told)
        same(ran.stdout, (b"1\nout\nold" if line else b"0\nout\n" + b"x" * size))


def names():
    """Takes the first free name for the new file, after those of many runs that were killed."""
    os.mkdir("names")
    for number in range(150):
        write("names/out.kodliwe-%d" % number, b"of another run")
    for text in [b"foo\n", b"a\n"]:
        same(run("-o", "names/out", "_ZN3fooE" if text == b"foo\n" else "_ZN1aE"), (b"", "", 0))
        same((read("names/out"), len(os.listdir("names"))), (text, 151))
    same({read("names/out.kodliwe-%d" % number) for number in range(150)}, {b"of another run"})
    # If a file has each name, the line says which is the last.
    build_guard()
    env = guard_env("none", TAKEN="out.kodliwe-")
    same(run("-o", "names/out", FOO, env=env), (b"", "kodliwe: names/out.kodliwe-999999: File exists\n", 1))
    same((read("names/out"), len(os.listdir("names"))), (b"a\n", 151))


def waiting():
    """Reads from a pipe that is still empty and does not wait: that is an error, and no reason to try forever."""
    reader, writer = os.pipe()
    os.set_blocking(reader, False)
    os.write(writer, b"_ZN3fooE x")
    ran = subprocess.run([program()], stdin=reader, stdout=subprocess.PIPE, stderr=subprocess.PIPE, timeout=20)
    os.close(reader), os.close(writer)
    line = b"kodliwe: standard input: Resource temporarily unavailable\n"
    same((ran.stdout, ran.stderr, ran.returncode), (b"foo x", line, 1))


def one_call():
    """Writes each line of an error or a note by one call: a socket of datagrams separates the bytes of two calls."""
    write("packed", MARKED[0][0])
    for words in [["-i", "none.txt"], ["--frob"], ["-l", "x"], ["-o", "none/out", FOO], ["-i", "packed"]]:
        ours, its = socket.socketpair(socket.AF_UNIX, socket.SOCK_DGRAM)
        subprocess.run([program(), *words], stdin=subprocess.DEVNULL, stdout=subprocess.DEVNULL, stderr=its, timeout=20)
        its.close()
        ours.settimeout(20)
        line = ours.recv(4096)
        ours.setblocking(False)
        try:
            more = ours.recv(4096)
        except (BlockingIOError, ConnectionResetError):
            more = b""
        ours.close()
        assert line.startswith(b"kodliwe: ") and line.endswith(b"\n") and more == b"", "%r, and then %r" % (line, more)


def large():
    """Takes more of everything than a bound that was made up would allow."""
    count = 300_000
    same(run(text=b"_ZN1aE " * count), (b"a " * count, "", 0))
    same(run(text=b"_ZN1aE\n" * count), (b"a\n" * count, "", 0))
    # A run of 3 MB that is not a symbol, one that is a symbol with a long suffix, and a line of 5 MB.
    many = 3_000_000
    same(run(text=b"x _ZNx" + b"y" * many + b" _ZN3fooE"), (b"x _ZNx" + b"y" * many + b" foo", "", 0))
    same(run(text=b"x _ZN3fooE." + b"y" * many + b" _ZN3fooE"), (b"x foo." + b"y" * many + b" foo", "", 0))
    same(run(text=b"l" * 5_000_000 + b" _ZN3fooE\n"), (b"l" * 5_000_000 + b" foo\n", "", 0))
    # An argument may have 131,071 bytes on Linux.
    same(run("_ZN3fooE." + "y" * 130_000, "_ZN3fooE"), (b"foo." + b"y" * 130_000 + b"\nfoo\n", "", 0))
    write("in", b"_ZN3fooE\n")
    same(run(*["-i", "in"] * 1000), (b"foo\n" * 1000, "", 0))
    # A limit of 0 prints only the marker.
    for words in (["-l", "0"], ["--limit=0"]):
        same(run(*words, FOO), (b"{size limit reached}\n", "", 0))


def long():
    piece = b"x_ y" * 262144
    ran = subprocess.Popen([program()], stdin=subprocess.PIPE, stdout=subprocess.PIPE)
    counted = []

    def count():
        total = 0
        while True:
            part = ran.stdout.read(1 << 20)
            if not part:
                break
            total += len(part)
        counted.append(total)

    counting = threading.Thread(target=count)
    counting.start()
    for _ in range(1024):
        ran.stdin.write(piece)
    with open("/proc/%d/status" % ran.pid) as file:
        peak = int(re.search(r"VmHWM:\s+(\d+) kB", file.read()).group(1))
    ran.stdin.close()
    counting.join()
    same((ran.wait(120), counted), (0, [1024 * len(piece)]))
    assert peak <= 8192, "it took %d KB" % peak
    return "%d KB" % peak


def help_():
    text, told, status = run("--help")
    same((told, status), ("", 0))
    lines = text.decode().splitlines()
    assert len(lines) <= 24 and max(map(len, lines)) <= 80
    for option in OPTIONS:
        assert re.search(r"(^|\W)%s\b" % option, text.decode()), option


def about():
    files = {"bash": "kodliwe.bash", "zsh": "_kodliwe", "fish": "kodliwe.fish"}
    for shell_name, name in files.items():
        wanted = (read(os.path.join(ROOT, "completions", name)), "", 0)
        for words in [["--completions", shell_name], ["--completions=" + shell_name], [FOO, "--completions", shell_name, "--frob"]]:
            same(run(*words), wanted)
    wanted = (read(os.path.join(ROOT, "docs", "kodliwe.1")), "", 0)
    for words in [["--man"], ["--hash", "--man", "--help"], ["--man", "--completions", "tcsh"]]:
        same(run(*words), wanted)
    line = "kodliwe: option '--completions'%s\n"
    for words in [["--completions"], ["--hash", FOO, "--completions"]]:
        same(run(*words), (b"", line % " needs a SHELL; try 'kodliwe --help'", 2))
    for value in ["tcsh", "", "Bash", "bash ", "-h"]:
        for words in [["--completions", value, "--help"], ["--completions=" + value]]:
            same(run(*words), (b"", line % (": '%s' is not bash, zsh or fish" % value), 2))
    for word in ["--man=1", "--manual", "--completion", "--completionsbash"]:
        same(run(word), (b"", "kodliwe: unknown option '%s'; try 'kodliwe --help'\n" % word, 2))
    same(run("--", "--man", "--completions"), (b"--man\n--completions\n", "", 0))
    # What `man` shows of it is the page.
    tool("man", "man-db")
    shown = shell("kodliwe --man | man -l -").replace("\b", "")
    assert "replace the Rust symbols in a text by their paths" in shown, shown[:500]
    for option in OPTIONS:
        assert option in shown, option


def manual():
    page = os.path.join(ROOT, "docs", "kodliwe.1")
    tool("groff")
    ran = subprocess.run(["groff", "-man", "-Tutf8", "-ww", page], stdout=subprocess.PIPE, stderr=subprocess.PIPE, check=True)
    same(ran.stderr, b"")
    text = re.sub("\x1b\\[[0-9;]*m|.\b", "", ran.stdout.decode()).replace("\u2010", "-").replace("\u2212", "-")
    for option in OPTIONS:
        assert option in text, option


def completions():
    folder = os.path.join(ROOT, "completions")
    tool("bash"), tool("zsh"), tool("fish")
    asked = 'source %s/kodliwe.bash; COMP_WORDS=(kodliwe -); COMP_CWORD=1; _kodliwe; echo "${COMPREPLY[@]}"' % folder
    same(subprocess.check_output(["bash", "-c", asked]).decode().split(), OPTIONS)
    # Bash ends a word at =, unless COMP_WORDBREAKS has none.
    for name in ["crash.txt", "cry", "other"]:
        write(name, b"")
    for asked, wanted in [
        ("'<' cr", ["crash.txt", "cry"]),
        ("'2>' ot", ["other"]),
        ("--input = cr", ["crash.txt", "cry"]),
        ("--output =", ["crash.txt", "cry", "other"]),
        ("--input=cr", ["--input=crash.txt", "--input=cry"]),
        ("-i ot", ["other"]),
        ("--limit = c", []),
        ("--completions f", ["fish"]),
        ("--completions = ", ["bash", "zsh", "fish"]),
        ("--completions=z", ["--completions=zsh"]),
        ("-- --input = cr", []),
    ]:
        lines = "source %s/kodliwe.bash; COMP_WORDS=(kodliwe %s); COMP_CWORD=$((${#COMP_WORDS[@]} - 1)); _kodliwe" % (folder, asked)
        same(subprocess.check_output(["bash", "-c", lines + '; echo "${COMPREPLY[@]}"']).decode().split(), wanted)
    subprocess.run(["zsh", "-n", folder + "/_kodliwe"], check=True)
    with open(folder + "/_kodliwe") as file:
        text = file.read()
    for option in OPTIONS:
        assert option in text, option
    offered = ""
    for front in ["-", "--"]:
        asked = 'source %s/kodliwe.fish; complete -C "kodliwe %s"' % (folder, front)
        offered += subprocess.check_output(["fish", "--no-config", "-c", asked], env=dict(os.environ, HOME=os.getcwd())).decode()
    for option in OPTIONS:
        assert re.search(r"^%s\t" % option, offered, re.M), option


def line_filter():
    """The program demangle_filter of the same build."""
    return built(os.path.join(os.path.dirname(program()), "demangle_filter"))


RUN = re.compile(rb"(?:_ZN|_R)[0-9A-Za-z_.$]*")


def paths_of_runs(text, ours, words):
    """
    Returns the path of each run, or the run itself, and how many paths kodliwe cuts earlier than demangle_filter. Runs that begin with
    `_RC` stay. All others are what demangle_filter prints with the words.
    """
    runs = RUN.findall(text)
    given = b"\n".join(runs)
    ran = subprocess.run([line_filter(), *words], input=given, stdout=subprocess.PIPE, check=True, timeout=120)
    paths = run(*ours, text=given)[0].split(b"\n")
    cut = 0
    for found, path, whole in zip(runs, paths, ran.stdout.split(b"\n"), strict=True):
        if found.startswith(b"_RC"):
            assert path == found, "%r.. does not stay" % found[:100]
        elif path != whole:
            assert texts.is_cut_earlier(path, whole), "%r.. is neither the path nor its start" % path[:100]
            cut += 1
    return paths, cut


def by_runs(text, paths):
    """The text with each run replaced by its path; that also replaces a single `_` before the run."""
    left = iter(paths)
    parts, kept = [], 0
    for found in RUN.finditer(text):
        path, start = next(left), found.start()
        before = text[max(kept, start - 2) : start]
        if path == found[0]:
            continue
        if re.fullmatch(rb"[^0-9A-Za-z_.$]?_", before, re.DOTALL):
            start -= 1
        parts += [text[kept:start], path]
        kept = found.end()
    return b"".join(parts) + text[kept:]


def typed(command, setting, line, wanted=None):
    """Returns what a shell shows at a terminal after a line, at the latest when that has the wanted text. The line is never run."""
    pid, terminal = pty.fork()
    if pid == 0:
        os.environ.update(TERM="dumb", HOME=os.getcwd(), PS1="$ ")
        os.execvp(command[0], command)
    shown = b""

    def read_until(pattern, seconds):
        nonlocal shown
        shown, until = b"", time.monotonic() + seconds
        while not re.search(pattern, shown, re.DOTALL) and select.select([terminal], [], [], max(0, until - time.monotonic()))[0]:
            try:
                shown += os.read(terminal, 65536)
            except OSError:
                return

    try:
        # What is typed is shown too, so the word is written in two parts.
        os.write(terminal, ("%s; echo rea''dy\r" % setting).encode())
        read_until(rb"ready\s.*\$ ", 30)
        os.write(terminal, line.encode())
        # Without a wanted text, the shell has three seconds.
        read_until(re.escape(wanted.encode()) if wanted else rb"$.", 30 if wanted else 3)
    finally:
        os.kill(pid, signal.SIGKILL)
        os.waitpid(pid, 0)
        os.close(terminal)
    return shown.decode(errors="replace")


def prompts():
    """Types at the prompt of each shell, and looks at what it completes."""
    folder = os.path.join(ROOT, "completions")
    for name in ["mine.txt", "subject.txt"]:
        write(name, b"")
    shells = [
        ([tool("bash"), "--norc", "--noprofile", "-i"], "source %s/kodliwe.bash" % folder),
        ([tool("zsh"), "-f", "-i"], "fpath=(%s $fpath); autoload -Uz compinit; compinit -u -D" % folder),
    ]
    for command, setting in shells:
        for line, wanted in [
            ("kodliwe < mi\t", "mine.txt"),
            ("kodliwe --hash > su\t", "subject.txt"),
            ("kodliwe -i mi\t", "mine.txt"),
            ("kodliwe --completions fi\t", "fish"),
        ]:
            shown = typed(command, setting, line, wanted)
            assert wanted in shown, "%s: %r shows %r" % (command[0], line, shown)
        shown = typed(command, setting, "kodliwe -f\t\t")
        assert not re.search("-f[hiloV]", shown), "%s offers options in one word: %r" % (command[0], shown)
    how = dict(env=dict(os.environ, HOME=os.getcwd()), timeout=60)
    for line, wanted in [
        ("kodliwe < mi", ["mine.txt"]),
        ("kodliwe > su", ["subject.txt"]),
        ("kodliwe -f", ["-f"]),
        ("kodliwe -o su", ["subject.txt"]),
        ("kodliwe --completions ", ["bash", "fish", "zsh"]),
    ]:
        asked = 'source %s/kodliwe.fish; complete -C "%s"' % (folder, line)
        shown = subprocess.check_output([tool("fish"), "--no-config", "-c", asked], **how).decode()
        same([row.split("\t")[0] for row in shown.splitlines()], wanted)


def filter_():
    lines = b"".join(symbol.encode() + b"\n" for _, symbol in hostile())
    # In each, so many symbols have references for which too much would be read again, or too long a path.
    for text, many in [(read(CORPUS), 9), (lines, 6)]:
        for ours, words in [(["--hash"], []), ([], ["--no-hash"])]:
            paths, cut = paths_of_runs(text, ours, words)
            assert cut == many, "%d paths are cut earlier, with %r" % (cut, ours)
            found = run(*ours, text=text)
            assert found == (by_runs(text, paths), "", 0), "the output differs, with %r" % ours


# Texts whose runs stay, or whose bytes before a run matter, and their output.
BEFORE = [
    (b"tag v1.0_RC0 released", b"tag v1.0_RC0 released"),
    (b"SW_RC0.zip CLK_RC1M", b"SW_RC0.zip CLK_RC1M"),
    (b"firmware_RC2.1.tar.gz", b"firmware_RC2.1.tar.gz"),
    (b"int _RC0 = 1;", b"int _RC0 = 1;"),
    (b"_RC1a __RC1a\n__RC1a_ZN3fooE", b"_RC1a __RC1a\n__RC1a_ZN3fooE"),
    (b"_RC2_40 0_RC4_FLAG config_Release __REG", b"_RC2_40 0_RC4_FLAG config_Release __REG"),
    (b"_RMC3foox _RXC0uC1t a_RYsC5h05af (__RMC3foox", b"<i64> <() as t> a<i16 as h05af> (<i64>"),
    (b'{"at":"a\\n_RNvC3foo3bar\\t_ZN3fooE%20_ZN3fooE"}', b'{"at":"a\\nfoo::bar\\tfoo%20foo"}'),
    (b'{"at":"a\\r\\n_RNvC3foo3bar\\r\\n"} %20_RNvC3foo3bar', b'{"at":"a\\r\\nfoo::bar\\r\\n"} %20foo::bar'),
    (b"\x1b[31m_RNvC3foo3bar\x1b[0m L_ZN3fooE 0_ZN3fooE", b"\x1b[31mfoo::bar\x1b[0m Lfoo 0foo"),
    # As grep --color, strace and Python write it.
    (b"T \x1b[01;31m\x1b[K_RNvC3foo3bar\x1b[m\x1b[K", b"T \x1b[01;31m\x1b[Kfoo::bar\x1b[m\x1b[K"),
    (b'write(1, "x\\n_RNvC3foo3bar\\t_ZN3foo"..., 40) = 40', b'write(1, "x\\nfoo::bar\\t_ZN3foo"..., 40) = 40'),
    (b"b'\\x00_RNvC3foo3bar\\xff_ZN3fooE' .L_RNvC3foo3bar", b"b'\\x00foo::bar\\xfffoo' .Lfoo::bar"),
    (b".text._ZN3fooE GCC_except_table1._ZN3fooE", b".text.foo GCC_except_table1.foo"),
    (b"__imp__ZN3fooE $_ZN3fooE <_ZN3fooE>", b"__imp_foo $foo <foo>"),
    (b"__ZN3foo3barE", b"foo::bar"),
    (b" __RNvC3foo3bar\n__RNvC3foo3bar\n", b" foo::bar\nfoo::bar\n"),
    (b"___ZN3fooE a__ZN3fooE .text.__ZN3fooE", b"__foo a_foo .text._foo"),
    (b"__Rest __ZN3fooEx _ __", b"__Rest __ZN3fooEx _ __"),
]


def run_cut(first, second):
    """The output of a run that reads the first part of its input before the second is there."""
    ran = subprocess.Popen([program()], stdin=subprocess.PIPE, stdout=subprocess.PIPE)
    ran.stdin.write(first)
    ran.stdin.flush()
    until = time.monotonic() + 20
    while struct.unpack("i", fcntl.ioctl(ran.stdin, termios.FIONREAD, bytes(4)))[0]:
        assert time.monotonic() < until, "%r is not read" % first
        time.sleep(0.001)
    return ran.communicate(second, timeout=20)[0]


def preceded():
    for text, wanted in BEFORE:
        for words in ([], ["--fold"], ["--hash"]):
            same(run(*words, text=text), (wanted, "", 0))
        for cut in range(1, len(text)):
            same(run_cut(text[:cut], text[cut:]), wanted)
        same(run(text=(text + b"\n") * 3000), ((wanted + b"\n") * 3000, "", 0))
        # An argument that is no symbol as a whole is such a text.
        if b"\n" not in text and text[:1] not in b"-_":
            same(run(text), (wanted + b"\n", "", 0))
    # One that is a symbol prints its path, also if it begins with `_RC`.
    same(run("_RC3foo", "__RC3foo", "RC3foo", "_RC0", "x _RC3foo"), (b"foo\nfoo\nfoo\n\nx _RC3foo\n", "", 0))


def underscored():
    names = [name.encode() for name in texts.symbols("all")]
    paths = run(text=b"\n".join(names))[0].split(b"\n")
    names = [name for name, path in zip(names, paths, strict=True) if name != path]
    assert len(names) >= 300, "only %d symbols" % len(names)
    for words in ([], ["--fold"], ["--hash"]):
        plain, marked_names = (
            run(*words, text=b"".join(b"%016x %c %s%s\n" % (n, b"tTW"[n % 3], sign, name) for n, name in enumerate(names)))
            for sign in (b"", b"_")
        )
        same(marked_names, plain)
    return "%d lines" % len(names)


# A part of a text of each kind, with a symbol as the tool writes it.
KINDS = {
    "nm": "{a:016x} t {s}\n",
    "objdump": "{a:016x} <{s}>:\n  {a:x}:\te8 16 00 00 00       \tcall   {a:x} <{s}+0x1b>\n",
    "map of GNU ld": " .text.{s}\n                0x{a:016x}      0x116 target/lib.o\n                0x{a:016x}                {s}\n",
    "map of lld": "  {a:x}   {a:x}       5b    16         target/lib.o:(.text.{s})\n  {a:x}   {a:x}        0     1                 {s}\n",
    "map of macOS": "0x{a:08X}\t0x00000054\t[{n:3}] _{s}\n",
    "perf script": "\t{a:16x} {s}+0x1b (/usr/bin/program)\n",
    "folded stacks": "program;_start;{s};{s} 17\n",
    "backtrace": "  {n:>4}: 0x{a:012x} - {s}\n             at /src/lib.rs:{n}:17\n",
    "gdb": "#{n}  0x{a:016x} in {s} () at /src/lib.rs:{n}\n",
    "sanitizer": "    #{n} 0x{a:012x} in {s} /src/lib.rs:{n}:17\n",
    "JSON": '{{"name":"{s}","line":{n},"frames":["_{s}","{s}"]}}\n',
}


def kinds():
    stored = {}
    for symbol, limit, answer in texts.stored():
        # Longer paths are stored as digests, and a symbol with another byte is more than one run, or none.
        if answer and limit == texts.NO_LIMIT and re.fullmatch(rb"_(ZN|R)[0-9A-Za-z_.$]+", symbol) and not answer[0].startswith(b"#len="):
            stored[symbol] = [texts.unescaped(column) for column in answer[:2]]
    real = [symbol for symbol in map(str.encode, texts.symbols("all")) if symbol in stored]
    assert len(real) >= 300, "only %d symbols" % len(real)
    for kind, form in KINDS.items():
        for option, column in ((["--hash"], 0), ([], 1)):
            lines, wanted = [], []
            for n, symbol in enumerate(real):
                line = form.format(n=n, a=0x55D0C0DE0000 + 64 * n, s="{s}").encode()
                lines.append(line.replace(b"{s}", symbol))
                wanted.append(line.replace(b"_{s}", b"{s}").replace(b"{s}", stored[symbol][column]))
            found, said, status = run(*option, text=b"".join(lines))
            assert (said, status) == ("", 0), "%s: %s" % (kind, said)
            assert found == b"".join(wanted), "a path of a line of %s differs" % kind
    return "%d symbols in each of %d kinds" % (len(real), len(KINDS))


def run_onto(name, *words, text=None):
    """Runs over a file that standard output appends to. Returns its lines on standard error, its status, and the file."""
    with open(name, "ab") as output, open(text or os.devnull, "rb") as stdin:
        ran = subprocess.run([program(), *words], stdin=stdin, stdout=output, stderr=subprocess.PIPE, timeout=20)
    return ran.stderr.decode(), ran.returncode, read(name)


def same_file():
    line = "kodliwe: %s: input file is output file\n"
    old = b"_ZN1aE\n"
    write("same", old)
    write("other", b"_ZN1bE\n")
    os.link("same", "hard")
    os.symlink("same", "soft")
    for name in ["same", "./same", "hard", "soft"]:
        same(run_onto("same", "-i", name), (line % name, 1, old))
    # Nothing is read or written before, whatever the place of the input is.
    same(run_onto("same", FOO, "-i", "other", "-i", "same"), (line % "same", 1, old))
    same(run_onto("same", "-o", "-", "-i", "same"), (line % "same", 1, old))
    same(run_onto("same", text="same"), (line % "standard input", 1, old))
    same(run_onto("same", "-", FOO, text="same"), (line % "standard input", 1, old))
    # Standard input is not read if there are arguments, and --output replaces the file.
    same(run_onto("same", FOO, text="same"), ("", 0, old + b"foo\n"))
    same(run_onto("same", "-o", "same", "-i", "same"), ("", 0, b"a\nfoo\n"))
    same(run_onto("copy", "-i", "same"), ("", 0, b"a\nfoo\n"))
    # A file that is not regular may be both.
    with open("/dev/null", "r+b") as device:
        ran = subprocess.run([program(), "-i", "/dev/null"], stdin=device, stdout=device, stderr=subprocess.PIPE, timeout=20)
    same((ran.stderr, ran.returncode), (b"", 0))
    # An empty file is the output too: the shell may have emptied it.
    write("empty", b"")
    same(run_onto("empty", "-i", "empty"), (line % "empty", 1, b""))


def terminal():
    note = b"kodliwe: reading standard input; press Ctrl-D to end\n"
    for words, told in [([], note), (["--hash"], note), (["-"], b""), (["-i", "-"], b"")]:
        ours, its = pty.openpty()
        ran = subprocess.Popen([program(), *words], stdin=its, stdout=subprocess.PIPE, stderr=subprocess.PIPE)
        os.close(its)
        os.write(ours, b"_ZN1aE\n\x04")
        same((*ran.communicate(timeout=20), ran.returncode), (b"a\n", told, 0))
        os.close(ours)
    ours, its = pty.openpty()
    ran = subprocess.run([program(), FOO], stdin=its, stdout=subprocess.PIPE, stderr=subprocess.PIPE, timeout=20)
    os.close(ours), os.close(its)
    same((ran.stdout, ran.stderr, ran.returncode), (b"foo\n", b"", 0))


# Texts that are compressed or encoded, how many bytes show that, and what the note says. No Rust symbol is in them.
# The frame of zstd is an empty one, as `zstd` writes it, and that of lz4 has a block that is not compressed.
MARKED = [
    (gzip.compress(b"text"), 2, "compressed (gzip); decompress it first"),
    (bytes.fromhex("28b52ffd240001000099e9d851"), 4, "compressed (zstd); decompress it first"),
    (lzma.compress(b"text"), 6, "compressed (xz); decompress it first"),
    (bytes.fromhex("04224d186040820400008074657874") + bytes(4), 4, "compressed (lz4); decompress it first"),
    (bz2.compress(b"text"), 10, "compressed (bzip2); decompress it first"),
    ("\ufefftext".encode("utf-16-le"), 2, "encoded (UTF-16); convert it to UTF-8 first"),
    ("\ufefftext".encode("utf-16-be"), 2, "encoded (UTF-16); convert it to UTF-8 first"),
]
# Similar inputs: almost a magic number, that of another format, and the byte order mark of UTF-8.
UNMARKED = [b"", b"\x1f\x8c\x08", b"\x8b\x1f", b"\xff\xff\xfe", b"\xfe\xfe", b"PK\x03\x04", b"BZh9", "\ufefftext".encode()]


def run_pieces(*pieces):
    """Returns the notes of a run over a pipe that stays open until each piece that was sent is copied."""
    ran = subprocess.Popen([program()], stdin=subprocess.PIPE, stdout=subprocess.PIPE, stderr=subprocess.PIPE)
    for piece in pieces:
        ran.stdin.write(piece)
        ran.stdin.flush()
        assert select.select([ran.stdout], [], [], 20)[0], "%r is not copied before more is sent" % piece
        same(os.read(ran.stdout.fileno(), 100), piece)
    out, told = ran.communicate(timeout=120)
    same((out, ran.returncode), (b"", 0))
    return told.decode()


def marked():
    note = "kodliwe: note: %s looks %s\n"
    for text, least, remark in MARKED:
        found = note % ("standard input", remark)
        same(run(text=text), (text, found, 0))
        same(run("-i", "-", text=text[:least]), (text[:least], found, 0))
        same(run("-i", write("packed", text)), (text, note % ("packed", remark), 0))
        same(run("-o", "copy", "-i", "./packed"), (b"", note % ("./packed", remark), 0))
        same(read("copy"), text)
        # The symbols are replaced as before.
        same(run(text=text + b" _ZN1aE"), (text + b" a", found, 0))
        # Each input is noted once, by its name.
        words = ["-i", "packed", FOO, "-", "-i", "packed", "-i", write("line\nfeed", text)]
        notes = "".join(note % (name, remark) for name in ["packed", "standard input", "packed", "'line\\nfeed'"])
        line = text if text.endswith(b"\n") else text + b"\n"
        same(run(*words, text=text), (line + b"foo\n" + 3 * text, notes, 0))
        for size in range(least):
            same(run(text=text[:size]), (text[:size], "", 0))
            same(run("-i", write("begun", text[:size])), (text[:size], "", 0))
        for before in [b"x", b"\n", b"x" * 65536, b"x" * 131072]:
            same(run("-i", write("behind", before + text)), (before + text, "", 0))
        # A pipe shows all of a mark in one read or is not noted, and nothing is read further for it.
        same(run_pieces(text[:least], b" more"), found)
        same(run_pieces(text[:1], text[1:least]), "")
    for text in UNMARKED:
        same(run(text=text), (text, "", 0))
        same(run("-i", write("plain", text)), (text, "", 0))
    # An error after the note, and a standard error that is closed.
    packed = write("packed", MARKED[0][0])
    lines = note % ("packed", MARKED[0][2]) + "kodliwe: none: No such file or directory\n"
    same(run("-i", "packed", "-i", "none"), (MARKED[0][0], lines, 1))
    ran = subprocess.run([program(), "-i", packed], stdout=subprocess.PIPE, preexec_fn=lambda: os.close(2), timeout=120)
    same((ran.stdout, ran.returncode), (MARKED[0][0], 0))


def version():
    text, told, status = run("--version")
    same((told, status), ("", 0))
    logic = subprocess.check_output([tool("rt"), "version"]).decode().split()[-1] if is_proved() else ""
    built_by = (
        "Proved with Rattle, logic %s" % logic
        if is_proved()
        else "Built by rustc from the source that Rattle proved, and tested; not proved"
    )
    same(text.decode().splitlines(), ["kodliwe 0.1.0", built_by, "Licence: MIT"])


def examples():
    """Returns the commands of README that print something, with what they print."""
    with open(os.path.join(ROOT, "README.md"), encoding="utf-8") as file:
        blocks = re.findall(r"(?:^    .*\n)+", file.read(), re.M)
    found = {}
    for block in blocks:
        command = None
        for line in block.replace("|\n      ", "| ").splitlines():
            line = line[4:]
            if line.startswith("$ "):
                command = line[2:]
                found[command] = ""
            elif command:
                found[command] += line + "\n"
    return found


def shell(command, **more):
    """Returns what a command prints in which the program is called by its name."""
    os.makedirs("bin", exist_ok=True)
    if not os.path.exists("bin/kodliwe"):
        os.symlink(program(), "bin/kodliwe")
    env = dict(os.environ, PATH=os.path.abspath("bin") + ":" + os.environ["PATH"], MANPAGER="cat", MANWIDTH="80")
    return subprocess.run(
        ["bash", "-c", "set -o pipefail; " + command], stdout=subprocess.PIPE, check=True, env=env, timeout=300, **more
    ).stdout.decode()


def readme():
    tried = 0
    for command, wanted in examples().items():
        if command.startswith(("echo ", "kodliwe ")):
            same(shell(command), wanted)
            tried += 1
    assert tried >= 2, "README has %d examples" % tried
    with open(os.path.join(ROOT, "README.md"), encoding="utf-8") as file:
        text = file.read()
    write("program.c", b"void _RNvC3foo3bar(void) {}\nint main(void) { return 0; }\n")
    subprocess.run([tool("cc"), "program.c", "-o", "program"], check=True)
    write("log", b"at _RNvC3foo3bar\n")
    write("link.map", b"0x10 _ZN3foo3barE\n")
    for command, wanted in [
        ("nm program | kodliwe", " foo::bar\n"),
        ("tail -f log | kodliwe", "at foo::bar\n"),
        ("kodliwe -i link.map -o link.map", ""),
        ("kodliwe _RNvC3foo3bar", "foo::bar\n"),
    ]:
        assert re.search(r"^    %s( |$)" % re.escape(command), text, re.M), "README has no command %s" % command
        ran = command.replace("tail -f log", "(timeout 2 tail -f log || true)")
        assert wanted in shell(ran), command
    same(read("link.map"), b"0x10 foo::bar\n")


def built_debug(folder, scheme="v0", *flags):
    """Builds the crate's program as README does, or in the legacy scheme, with further flags of rustc, and returns it."""
    with open(os.path.join(ROOT, "README.md"), encoding="utf-8") as file:
        build = re.search(r"^    (RUSTFLAGS=.* cargo build .*)$", file.read(), re.M).group(1)
    # rustc has a flag for the newer scheme only.
    build = build if scheme == "v0" else build.replace("-C symbol-mangling-version=v0", "")
    build = build.replace("RUSTFLAGS='", "RUSTFLAGS='%s " % " ".join(flags))
    env = dict(os.environ, CARGO_TARGET_DIR=folder, CARGO_NET_OFFLINE="true")
    subprocess.run(["bash", "-c", build], cwd=ROOT, env=env, check=True, stdout=subprocess.PIPE, stderr=subprocess.STDOUT, timeout=900)
    return os.path.join(folder, "debug", "kodliwe")


@functools.lru_cache(maxsize=None)
def tool_texts():
    """Returns what tools write of debug builds in both schemes: a name, the text, and the same without underscores of macOS."""
    rows = []
    for scheme in ("v0", "legacy"):
        for linker in ("lld", "bfd"):
            folder = os.path.join(OUT, "tools", scheme, linker)
            listed = os.path.join(folder, "link.map")
            flags = ["-C", "link-arg=-fuse-ld=" + linker, "-C", "link-arg=-Wl,-Map=" + listed]
            found = built_debug(folder, scheme, *flags)
            rows.append(("map of %s, %s" % (linker, scheme), read(listed), read(listed)))
        names = subprocess.check_output([tool("nm"), found])
        rows.append(("nm, " + scheme, names, names))
        rows.append(("nm of macOS, " + scheme, re.sub(rb" (_(?:ZN|R).*)", rb" _\1", names), names))
        code = subprocess.check_output([tool("objdump"), "-d", "--no-show-raw-insn", found])
        rows.append(("objdump, " + scheme, code, code))
    return rows


def tools():
    """Each symbol in what nm, objdump and two linkers write is replaced as by demangle_filter, which ignores what is before it."""
    told = []
    for name, text, plain in tool_texts():
        wanted = subprocess.run([line_filter(), "--no-hash"], input=plain, stdout=subprocess.PIPE, check=True, timeout=120).stdout
        count = sum(line != path for line, path in zip(plain.split(b"\n"), wanted.split(b"\n"), strict=True))
        assert count >= 300, "%s: only %d lines have a symbol" % (name, count)
        assert run(text=text) == (wanted, "", 0), "%s: a symbol is not replaced" % name
        told.append("%s %s" % (name, count))
    return "lines of " + ", ".join(told)


def sizes():
    """README's largest function: the same name, and about the same size, which the compiler decides."""
    command, wanted = next((command, wanted) for command, wanted in examples().items() if command.startswith("nm "))
    folder = os.path.join(OUT, "sizes")
    built_debug(folder)
    found = shell(command.replace("rust/target", folder)).split(None, 1)
    wanted = wanted.split(None, 1)
    same(found[1], wanted[1])
    assert 0.8 < int(found[0]) / int(wanted[0]) < 1.25, "it has %s bytes, README says %s" % (found[0], wanted[0])


# Gives two files of one folder the device and the inode that the environment says, in place of their own.
IDENTIFIED = r"""
#define _GNU_SOURCE
#include <dlfcn.h>
#include <stdlib.h>
#include <string.h>
#include <sys/stat.h>

int statx(int folder, const char *path, int flags, unsigned mask, struct statx *found) {
    int (*real)(int, const char *, int, unsigned, struct statx *) =
        (int (*)(int, const char *, int, unsigned, struct statx *))dlsym(RTLD_NEXT, "statx");
    int status = real(folder, path, flags, mask, found);
    if (status == 0 && S_ISREG(found->stx_mode)) {
        found->stx_ino = strtoull(getenv("INODE"), NULL, 10);
        found->stx_dev_major = 7;
        found->stx_dev_minor = strcmp(path, "/dev/stdout") == 0 ? 1 : strtoul(getenv("DEVICE"), NULL, 10);
    }
    return status;
}
"""


def identified():
    write("identified.c", IDENTIFIED.encode())
    subprocess.run([tool("cc", "gcc"), "-O1", "-shared", "-fPIC", "identified.c", "-o", "identified.so", "-ldl"], check=True)
    write("one", b"_ZN1aE\n")
    line = b"kodliwe: one: input file is output file\n"
    for inode, device, told, out in [("5", "1", line, b""), ("5", "2", b"", b"a\n"), ("0", "1", b"", b"a\n")]:
        env = dict(os.environ, LD_PRELOAD=os.path.abspath("identified.so"), INODE=inode, DEVICE=device)
        with open("two", "wb") as output:
            ran = subprocess.run([program(), "-i", "one"], env=env, stdout=output, stderr=subprocess.PIPE, timeout=20)
        same((ran.stderr, ran.returncode, read("two")), (told, 1 if told else 0, out))


def no_symbol():
    note = "kodliwe: note: '%s' is a file; use -i to read it\n"
    for name in ["_Report.txt", "a_RC.txt", "_ZN.log", "_ZNSt6vectorIiSaIiEE9push_backERKi"]:
        write(name, b"")
        same(run(name), (name.encode() + b"\n", note % name, 0))
    # An error is the only line of a run that ends with status 1.
    same(run("_Report.txt", "-i", "none.txt"), (b"_Report.txt\n", "kodliwe: none.txt: No such file or directory\n", 1))


CHECKS = [
    log,
    folded,
    reread,
    inputs,
    words,
    symbols,
    lines,
    unknown,
    missing,
    noted,
    standard_output,
    position,
    full,
    closed,
    followed,
    replaced,
    links,
    foreign_links,
    signals,
    owners,
    private,
    unwritable,
    descriptors,
    kept,
    device,
    interrupted,
    memory,
    requests,
    guarded,
    full_disk,
    names,
    waiting,
    one_call,
    large,
    long,
    about,
    help_,
    manual,
    completions,
    prompts,
    filter_,
    preceded,
    underscored,
    kinds,
    same_file,
    terminal,
    marked,
    version,
    identified,
    no_symbol,
    readme,
    tools,
    sizes,
]
# What is not tried with a build, and why.
LEFT_OUT = {
    ("cargo", memory): "Rust's library ends the program if memory can't be allocated",
    ("cargo", requests): "Rust's library ends the program if memory can't be allocated",
}


def in_a_folder(check):
    """Runs a check in a new folder."""
    built(program())
    with tempfile.TemporaryDirectory() as folder:
        os.chdir(folder)
        try:
            return check()
        finally:
            os.chdir(ROOT)


def main():
    parsed = argparse.ArgumentParser(description=__doc__, formatter_class=argparse.RawDescriptionHelpFormatter)
    add_programs(parsed)
    parsed.add_argument("only", nargs="*", metavar="NAME", help="run these alone")
    words = parsed.parse_args()
    tally = Tally(words.only)
    for NOW[:] in chosen(words.programs):
        for check in CHECKS:
            name = "%s: %s" % (NOW[0], check.__name__.rstrip("_").replace("_", " "))
            if (NOW[0], check) not in LEFT_OUT:
                tally.step(name, in_a_folder, check)
            elif not words.only:
                print("%s: not tried, since %s" % (name, LEFT_OUT[NOW[0], check]))
    return tally.end()


if __name__ == "__main__":
    sys.exit(main())
