"""Searches for the v0 run that costs most, by a hill climb: runs by the grammar are changed at random, and the dearest ones again.

The search knows nothing of the code. It is given a function that returns what each of some runs costs.
"""
import random
import re

from hostile_texts import Grammar, back
from texts import DIGITS

# The runs of a generation, the dearest ones that remain, and how many generations without a gain end a climb.
RUNS, KEPT, PATIENCE = 300, 30, 8
# What a climb has to gain, as a part of the best.
GAIN = 0.003
# The fewest bytes of a run. A shorter one is cheap, and there is no other run of its length to compare it with.
LEAST = 6
# A reference, a disambiguator, a constant, and the length of a name.
REFERENCE, DISAMBIGUATOR, CONSTANT = re.compile(r"B([0-9a-zA-Z]*)_"), re.compile(r"[sLG][0-9a-zA-Z]*_"), re.compile(r"R?[a-z]n?[0-9a-f]*_")
NAME = re.compile(r"u?([1-9][0-9]{0,3})_?")


def place_of(digits):
    """Returns the place to which a reference with these digits leads."""
    place = 0
    for digit in digits:
        place = place * 62 + DIGITS.index(digit)
    return place + 1 if digits else 0


def units(body):
    """Returns the parts of a run after its prefix: references, numbers, names and single bytes."""
    found, at = [], 0
    while at < len(body):
        name = NAME.match(body, at)
        if name and name.end() + int(name[1]) <= len(body):
            end = name.end() + int(name[1])
        else:
            after = at + 1 if body[at] == "K" else at
            word = REFERENCE.match(body, at) or DISAMBIGUATOR.match(body, at) or (after > at and CONSTANT.match(body, after))
            end = word.end() if word else at + 1
        found.append(body[at:end])
        at = end
    return found


def starts_of(parts):
    """Returns the places at which parts begin, and the place after them."""
    places = [0]
    for part in parts:
        places.append(places[-1] + len(part))
    return places


class Changes:
    """Changes a run at random. `most` is the most bytes of a run."""

    def __init__(self, dice, most):
        self.dice, self.most = dice, most

    def size(self):
        """Returns a number of parts. Most numbers are small."""
        return self.dice.choice([1, 1, 1, 2, 2, 3, 5, 8, 13, 40])

    def span(self, parts):
        """Returns where a random sequence of parts begins and ends."""
        start = self.dice.randrange(len(parts) + 1)
        return start, min(start + self.size(), len(parts))

    def replaced(self, parts, start, end, new):
        """Replaces parts. Half of the time, references still lead to what they led to if that was after these parts."""
        places = starts_of(parts)
        kept = list(parts)
        if self.dice.random() < 0.5:
            more = sum(map(len, new)) - (places[end] - places[start])
            for at, part in enumerate(kept):
                found = REFERENCE.fullmatch(part)
                if found and place_of(found[1]) >= places[end] and places[end] > places[start]:
                    kept[at] = back(max(place_of(found[1]) + more, 0))
        return kept[:start] + new + kept[end:]

    def cut(self, parts, _):
        start, end = self.span(parts)
        return self.replaced(parts, start, end, [])

    def repeat(self, parts, _):
        start, end = self.span(parts)
        times = self.dice.choice([2, 2, 3, 5, 10, 30, 100])
        return self.replaced(parts, start, end, parts[start:end] * times)

    def insert(self, parts, other):
        start, end = self.span(other)
        at = self.dice.randrange(len(parts) + 1)
        return self.replaced(parts, at, at, other[start:end])

    def exchange(self, parts, other):
        """Puts a part of the other run in the place of a part of this one."""
        start, end = self.span(other)
        return self.replaced(parts, *self.span(parts), other[start:end])

    def cross(self, parts, other):
        """Continues this run as the other one."""
        return parts[: self.dice.randrange(len(parts) + 1)] + other[self.dice.randrange(len(other) + 1) :]

    def refer(self, parts, _):
        """Inserts references to a part. Few of them lead into it."""
        at = self.dice.randrange(len(parts) + 1)
        place = starts_of(parts)[self.dice.randrange(at + 1)]
        if self.dice.random() < 0.1:
            place += self.dice.randrange(10)
        return parts[:at] + [back(place)] * self.dice.choice([1, 1, 2, 5, 20, 60]) + parts[at:]

    def retarget(self, parts, _):
        """Lets a reference, and all that are like it, or only this one, lead to another part."""
        places = starts_of(parts)
        known = [at for at, part in enumerate(parts) if REFERENCE.fullmatch(part)]
        if not known:
            return self.refer(parts, None)
        at = self.dice.choice(known)
        old, place = parts[at], places[self.dice.randrange(at + 1)]
        if self.dice.random() < 0.4:
            place = max(place_of(REFERENCE.fullmatch(old)[1]) + self.dice.choice([-3, -2, -1, 1, 2, 3]), 0)
        if self.dice.random() < 0.5:
            return [back(place) if part == old else part for part in parts]
        return parts[:at] + [back(place)] + parts[at + 1 :]

    def damage(self, parts, _):
        """Changes the end."""
        kept = parts[: len(parts) - self.dice.choice([0, 0, 1, 1, 2, 3, 10])]
        return kept + [self.dice.choice(["", "0", "E", "EE", "_", "$", "00", "z", ".", "B_", "E" * 9])]

    def byte(self, parts, _):
        """Changes a byte."""
        text = "".join(parts)
        at = self.dice.randrange(len(text) + 1)
        return [text[:at], self.dice.choice(DIGITS + "_" + "RTEBCINvYu0F"), text[at + self.dice.randrange(2) :]]

    def once(self, run, other):
        """Returns a run that is changed once."""
        kinds = [self.cut, self.repeat, self.insert, self.exchange, self.cross, self.refer, self.retarget, self.damage, self.byte]
        return "_R" + "".join(self.dice.choice(kinds)(units(run[2:]), units(other[2:])))[: self.most - 2]

    def changed(self, run, other):
        """Returns a run that is changed some times."""
        run = self.once(run, other)
        while self.dice.random() < 0.5:
            run = self.once(run, other)
        return run


class Search:
    """Climbs from new runs again and again. `scores` returns what each run of a list costs."""

    def __init__(self, seed, most, scores, known=()):
        self.dice, self.most, self.scores = random.Random(seed), most, scores
        self.changes = Changes(self.dice, most)
        self.known = [run for run in known if len(run) <= most]
        # The dearest run of each climb, with what it costs, and the runs that were tried.
        self.best, self.tried, self.climbs = {}, set(), 0
        # Of this climb: the first runs, the dearest ones, what the dearest one costs, and the generations without a gain.
        self.first, self.pool, self.top, self.idle = [], {}, 0, PATIENCE

    def fresh(self):
        """Returns the runs with which a climb begins. Every second climb begins with known ones too."""
        made = [Grammar(self.dice.randrange(1 << 40)).symbol() for _ in range(RUNS)]
        made = [run[: 2 + self.dice.randrange(len(run))] if self.dice.random() < 0.5 else run for run in made]
        return made + (self.known if self.climbs % 2 == 0 else [])

    def children(self):
        """Returns runs that are changed from those of the pool. The dearer ones are changed more often."""
        ranked = sorted(self.pool, key=self.pool.get, reverse=True)
        made = []
        for _ in range(RUNS):
            parent = ranked[int(len(ranked) * self.dice.random() ** 2)]
            other = self.dice.choice(ranked if self.dice.random() < 0.7 else self.first)
            made.append(self.changes.changed(parent, other))
        return made

    def generation(self):
        """Tries the runs of one generation."""
        is_new = self.idle >= PATIENCE
        if is_new:
            self.first, self.pool, self.top, self.idle = self.fresh(), {}, 0, 0
            self.climbs += 1
        runs = self.first if is_new else self.children()
        runs = list(dict.fromkeys(run[: self.most] for run in runs if (is_new or run not in self.tried) and len(run) >= LEAST))
        self.tried.update(runs)
        self.pool.update(zip(runs, self.scores(runs)))
        # Of runs that cost the same, the shortest one remains.
        ranked = sorted(self.pool.items(), key=lambda row: (-row[1], len(row[0])))
        alike = {round(score, 3): (run, score) for run, score in reversed(ranked)}
        self.pool = dict(sorted(alike.values(), key=lambda row: -row[1])[:KEPT])
        top = max(self.pool.values())
        self.idle = 0 if top > self.top * (1 + GAIN) else self.idle + 1
        self.top = max(top, self.top)
        self.best[self.climbs] = max((score, run) for run, score in self.pool.items())

    def dearest(self):
        """Returns the dearest run of each climb, the dearest of all first."""
        return list(dict.fromkeys(run for _, run in sorted(self.best.values(), reverse=True)))
