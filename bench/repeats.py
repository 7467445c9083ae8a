#!/usr/bin/env python3
"""Runs kodliwe and further programs over texts with repeated symbols, and over texts in which each symbol comes once.

It makes each text in a temporary folder and removes it at the end:

profile     lines as `perf script` prints them. Their symbols come by Zipf's law, 60 times each on average. They are those of the stored
            corpus, in as many variants as are needed, each with another hash or another crate's disambiguator.
once        lines as `nm` prints them, each with another symbol.
one pair    40 symbols that share one pair of entries in kodliwe's memo, in alternation.
long texts  a symbol of 159 bytes that prints 37,513 bytes, up to the limit.
long run    a symbol of 1,000,000 bytes.
plain       lines without a symbol.
underscores lines without a symbol that have many underscores.

With --objdump PATH and --nm PATH it also uses the output of `objdump -d` and `nm` for a program or a library, and with --text FILE a
file. For each text and program it prints megabytes a second of processor time (the least of --rounds runs, in which the programs
alternate), the peak memory, and instructions a line of the first 20,000 lines, counted by callgrind, less those of a run on no input.
Build the programs first, by `make`.
"""
import argparse, itertools, os, random, re, subprocess, tempfile

from measuring import CORPUS, KODLIWE, further, instructions, need_programs, need_valgrind

DIGITS = "0123456789abcdefghijklmnopqrstuvwxyzABCDEFGHIJKLMNOPQRSTUVWXYZ"
COUNTED_LINES = 20_000
REPEATS = 60
MULTIPLIER = 0x9E3779B97F4A7C15
WORD = (1 << 64) - 1


def stored_symbols():
    """The symbols of libraries and programs that the stored corpus has, in its order."""
    found = {}
    for line in itertools.islice(open(CORPUS, encoding="utf-8"), 1700):
        for field in line.rstrip("\n").split("\t"):
            if re.fullmatch(r"(_ZN|_R)[!-~]+", field) and "\\" not in field:
                found[field] = None
                break
    return [symbol for symbol in found if re.search(r"17h[0-9a-f]{16}E", symbol) or re.search(r"Cs[0-9A-Za-z]{11}_", symbol)]


def variant(symbol, chance):
    """The same symbol of another build: with another hash, or other disambiguators of its crates."""
    digits = "".join(chance.choices("0123456789abcdef", k=16))
    legacy = re.sub(r"17h[0-9a-f]{16}E", "17h%sE" % digits, symbol)
    # A disambiguator is below 2^64, so the first of eleven digits is at most 21.
    return re.sub(r"Cs[0-9A-Za-z]{11}_", lambda _: "Cs%s%s_" % (chance.choice(DIGITS[1:21]), "".join(chance.choices(DIGITS, k=10))), legacy)


def variants(count):
    chance = random.Random(7)
    for symbol in itertools.islice(itertools.cycle(stored_symbols()), count):
        yield variant(symbol, chance)


def profile(size):
    """Lines as `perf script` prints them, of that many bytes."""
    chance = random.Random(11)
    symbols = list(variants(max(1, size // 150 // REPEATS)))
    chance.shuffle(symbols)
    weights = list(itertools.accumulate(1 / (rank + 1) for rank in range(len(symbols))))
    written = 0
    while written < size:
        lines = ["rustc  4242 1234.567890:     250000 cycles:u: \n"]
        for symbol in chance.choices(symbols, cum_weights=weights, k=24):
            lines.append("\t    %x %s+0x%x (/usr/lib/librustc_driver.so)\n" % (chance.randrange(1 << 47), symbol, chance.randrange(4096)))
        lines.append("\n")
        text = "".join(lines).encode()
        written += len(text)
        yield text


def once(size):
    for n, symbol in enumerate(variants(size // 115)):
        yield ("%016x t %s\n" % (n * 64, symbol)).encode()


def hash_of(key):
    """The hash by which crates/text_memo chooses a key's pair."""
    value = 0
    groups = [key[at : at + 16] for at in range(0, len(key) // 16 * 16, 16)]
    for group in groups + [key[-16:]]:
        number = int.from_bytes(group, "little")
        product = ((number & WORD) ^ value) * ((number >> 64) ^ MULTIPLIER)
        value = (product & WORD) ^ (product >> 64)
    return value


def one_pair(size):
    symbol = "_RNvNtCs19Rhsj6B5T4_23rustc_next_trait_solver5solve15name%06d_more"
    found = {}
    for n in itertools.count():
        key = (symbol % n).encode()
        place = (hash_of(key) >> 32) % 8192
        found.setdefault(place, []).append(key)
        if len(found[place]) == 40:
            text = b"\n".join(found[place]) + b"\n"
            return (text for _ in range(size // len(text)))


def deep_tuple():
    """A symbol whose references double its text at each level."""
    symbol, at = "IC1aTC1bC1bE", 4
    while len(symbol) < 150:
        here, reference = len(symbol), at - 1
        word = ""
        while True:
            word = DIGITS[reference % 62] + word
            reference //= 62
            if reference == 0:
                break
        symbol += "T%sE" % (("B%s_" % word) * 2)
        at = here
    return "_R" + symbol + "E"


def long_texts(size):
    line = (deep_tuple() + "\n").encode()
    return (line for _ in range(max(1, size // 250_000)))


def long_run(size):
    line = b"_ZN" + b"8abcdefgh" * 111_108 + b"17h05af221e174051e9E\n"
    return (line for _ in range(max(1, size // len(line))))


def plain(size):
    return (b"no symbol on this line, only a few words and numbers %d\n" % n for n in range(size // 60))


def underscores(size):
    return (b"some_names_of_c __with_many_ _Regions_ and_ more_of_%d_\n" % n for n in range(size // 60))


def output_of(command):
    run = subprocess.run(command, stdout=subprocess.PIPE, check=True)
    return [run.stdout]


def made_texts(size):
    """The texts that are made, by name: for each the parts that it is written of."""
    yield "profile", profile(size)
    yield "once", once(size // 4)
    yield "one pair", one_pair(size // 4)
    yield "long texts", long_texts(size)
    yield "long run", long_run(size)
    yield "plain", plain(size)
    yield "underscores", underscores(size // 4)


def texts(given):
    """The texts to run over, as `made_texts` yields them."""
    if not given.only_given:
        for name, parts in made_texts(given.size * 1_000_000):
            if not given.only or name in given.only:
                yield name, parts
    for path in given.objdump:
        yield "objdump -d " + os.path.basename(path), output_of(["objdump", "-d", path])
    for path in given.nm:
        yield "nm " + os.path.basename(path), output_of(["nm", path])
    for path in given.text:
        yield os.path.basename(path), [open(path, "rb").read()]


def spent(words, path):
    """The processor time of one run, in it and in the system."""
    pid = os.fork()
    if pid == 0:
        os.dup2(os.open(path, os.O_RDONLY), 0)
        os.dup2(os.open(os.devnull, os.O_WRONLY), 1)
        os.execvp(words[0], words)
    _, _, usage = os.wait4(pid, 0)
    return usage.ru_utime + usage.ru_stime


def most_memory(words, path):
    """The peak memory of one run in KB, as the system last reported it before the run ended.

    The figure of `wait4` includes this script, from which the run was forked.
    """
    most = 0
    with open(path, "rb") as file:
        run = subprocess.Popen(words, stdin=file, stdout=subprocess.DEVNULL)
    while run.poll() is None:
        with open("/proc/%d/status" % run.pid) as status:
            for line in status:
                if line.startswith("VmHWM:"):
                    most = int(line.split()[1])
    return most


def measure(programs, path, rounds):
    """The least time of each program, over runs in which the programs alternate."""
    least = {name: None for name, _ in programs}
    for _ in range(rounds):
        for name, words in programs:
            seconds = spent(words, path)
            least[name] = seconds if least[name] is None else min(least[name], seconds)
    return least


def counted(words, path):
    """Instructions a line of the first lines, less those of a start."""
    with open(path, "rb") as file:
        lines = list(itertools.islice(file, COUNTED_LINES))
    text = b"".join(lines)
    return (instructions(words, text) - instructions(words, b"")) / max(1, len(lines))


def main():
    parser = argparse.ArgumentParser(description=__doc__, formatter_class=argparse.RawDescriptionHelpFormatter)
    parser.add_argument("--size", type=int, default=50, help="megabytes of the profile (50)")
    parser.add_argument("--rounds", type=int, default=5, help="runs of each program over each text (5)")
    parser.add_argument("--objdump", action="append", default=[], metavar="PATH")
    parser.add_argument("--nm", action="append", default=[], metavar="PATH")
    parser.add_argument("--text", action="append", default=[], metavar="FILE")
    parser.add_argument("--only-given", action="store_true", help="leave out the texts that are made")
    parser.add_argument("--only", action="append", default=[], metavar="NAME", help="of the texts that are made, only this one")
    parser.add_argument("--no-instructions", action="store_true")
    parser.add_argument("--also", type=further, action="append", default=[], metavar="NAME=COMMAND")
    given = parser.parse_args()
    need_programs()
    if not given.no_instructions:
        need_valgrind()
    programs = [("kodliwe", [KODLIWE])] + given.also
    print("| text | program | MB a second | times as fast as kodliwe | memory, KB | instructions a line |")
    print("| --- | --- | ---: | ---: | ---: | ---: |")
    for name, parts in texts(given):
        with tempfile.NamedTemporaryFile() as file:
            for part in parts:
                file.write(part)
            file.flush()
            megabytes = os.path.getsize(file.name) / 1_000_000
            least = measure(programs, file.name, given.rounds)
            for program, words in programs:
                a_line = "-" if given.no_instructions else "{:,.0f}".format(counted(words, file.name))
                rate, times = megabytes / max(least[program], 1e-6), least["kodliwe"] / max(least[program], 1e-6)
                print(
                    "| %s, %.0f MB | %s | %.0f | %.3f | %d | %s |"
                    % (name, megabytes, program, rate, times, most_memory(words, file.name), a_line),
                    flush=True,
                )


if __name__ == "__main__":
    main()
