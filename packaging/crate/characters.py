"""Packs the tables of characters, which every program that prints a literal has."""

import re

from rattle_tokens import SourceError

WIDTH, PLANES = 0x10000, 17
TABLE = re.compile(r"pub\(super\) static (\w+): &\[u32\] = &\[\n([\d, ]+)\n\];\n")
# Runs that have the numbers 0 and 1 by turns need no numbers.
BY_TURNS = "GRAPHEME_EXTEND"


def packed(text):
    """Returns the packed form of the tables that crates/character_tables prints.

    There, an entry is 32 times the code point after a run of characters with one number, plus the
    number. Here, the last code point of each run is without its plane. The other two tables have
    the first run that ends in a plane or after it, and the numbers of two runs in each byte.
    """
    text = text.replace("\n\n", "\n// packaging/crate/characters.py packs them.\n\n", 1)
    return TABLE.sub(lambda found: packed_table(found[1], [int(word) for word in found[2].split(",") if word.strip()]), text)


def packed_table(name, words):
    lasts, numbers = [word // 32 - 1 for word in words], [word % 32 for word in words]
    planes = [sum(last < plane * WIDTH for last in lasts) for plane in range(PLANES + 1)]
    text = array(f"{name}_LASTS", "u16", [last % WIDTH for last in lasts]) + array(f"{name}_PLANES", "u16", planes)
    if name != BY_TURNS:
        return text + array(f"{name}_NUMBERS", "u8", [one + 16 * other for one, other in zip(numbers[::2], [*numbers[1::2], 0])])
    if any(number != at % 2 for at, number in enumerate(numbers)):
        raise SourceError(1, f"the numbers of {name} are not 0 and 1 by turns")
    return text


def array(name, kind, values):
    return f"pub(super) static {name}: [{kind}; {len(values)}] = [\n{', '.join(map(str, values))},\n];\n"
