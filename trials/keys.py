#!/usr/bin/env python3
"""How many pairs of keywords share a key, in lists of keywords that are alike.

    python3 trials/keys.py

The lists: 200 keywords of 32 bytes that differ in one byte, by two letters, by two hexadecimal digits or by three digits,
at each place; 253 that end in three digits, of each length; numbers without leading zeros behind ten stems and before four
endings; 200 names put together from a maker, a measure, a wavelength and a direction, in two orders; random words. Prints
the pairs for the key of `spellings::key` (`crates/spellings/specs/Keys.antt`), for the key before note 6 of 02 and for one
of seven chosen bytes, and the four multipliers in eight bits that are best.
"""

import collections
import itertools
import random
import string

import keywords  # noqa: F401 (it finds the folder of the next)
from grammar_fields import alike

KEYS, LENGTH, MULTIPLIER = 4096, 32, 153


def weighed(multiplier):
    """The key by powers of a multiplier in eight bits."""
    weights = [pow(multiplier, i, 256) for i in range(LENGTH)]
    return lambda s: sum(byte * weight for byte, weight in zip(s, weights)) % KEYS


def chosen(places, weights=(1, 31, 961, 7, 101, 211, 401)):
    """A key of the bytes at some places, given by the length."""
    return lambda s: sum(s[max(0, at)] * weight for at, weight in zip(places(len(s)), weights)) % KEYS


def before(s):
    """The key before note 6: of the last three bytes, the first and the length."""
    return (FOUR(s) + len(s) % 64 * 17) % KEYS


FOUR = chosen(lambda n: (n - 1, n - 2, n - 3, 0))
SEVEN = chosen(lambda n: (n - 1, n - 2, n - 3, 0, n // 2, n // 4, 3 * n // 4))


def put_in(parts, place):
    """Keywords of 32 bytes with these parts at a place."""
    return [b"k" * place + part + b"k" * (LENGTH - place - len(part)) for part in parts]


def names():
    """Names of one maker, in two orders."""
    measures = ("LOSS", "GAIN", "ARC", "TEMP", "ANGLE", "OFFSET", "CLEAVE", "CORE", "MFD", "TENSION")
    parts = list(itertools.product(measures, ("FWD", "BWD", "AVG", "MAX", "MIN"), ("1310", "1490", "1550", "1625")))
    yield [f"ACME-{measure}-{wave}-{way}".encode() for measure, way, wave in parts]
    yield [f"ACME-{wave}-{way}-{measure}-value".encode() for measure, way, wave in parts]


def numbers():
    """Numbers behind a stem and before an ending."""
    for stem in ("", "w", "ch", "CH", "word", "value", "channel-", "splice_", "P00-", "ACME-LOSS-"):
        for ending in ("", "-max", "nm", "_value"):
            for first, count in ((0, 200), (1, 200), (0, 253)):
                yield [f"{stem}{number}{ending}".encode() for number in range(first, first + count)]


def lists():
    """The sorts of lists, each with its lists."""
    yield "one byte", [alike(place) for place in range(LENGTH)]
    letters = ["".join(pair).encode() for pair in itertools.product(string.ascii_lowercase, repeat=2)][:200]
    yield "two letters", [put_in(letters, place) for place in range(LENGTH - 1)]
    yield "two hexadecimal digits", [put_in([b"%02X" % i for i in range(200)], place) for place in range(LENGTH - 1)]
    yield "three digits", [put_in([b"%03d" % i for i in range(200)], place) for place in range(LENGTH - 2)]
    yield "three digits at the end", [[b"k" * n + b"%03d" % i for i in range(253)] for n in range(LENGTH - 2)]
    yield "numbers without leading zeros", list(numbers())
    yield "names of one maker", list(names())
    yield "random words", [words(random.Random(6), n) for n in (3, 4, 6, 8, 32)]


def words(chance, length):
    """Up to 200 words of a length."""
    return list({"".join(chance.choices(string.ascii_lowercase, k=length)).encode() for _ in range(200)})


def pairs(count):
    return count * (count - 1) // 2


def shared(key, some_lists):
    """How many pairs of a list have one key, in all of some lists."""
    counts = (collections.Counter(map(key, spellings)) for spellings in some_lists)
    return sum(pairs(count) for counted in counts for count in counted.values())


def main():
    sorts = list(lists())
    print("| lists | how many | pairs | one key, before | of seven bytes | of all |\n|---|---|---|---|---|---|")
    for said, some_lists in sorts:
        counts = [shared(key, some_lists) for key in (before, SEVEN, weighed(MULTIPLIER))]
        all_pairs = sum(pairs(len(spellings)) for spellings in some_lists)
        print(f"| {said} | {len(some_lists)} |", *(f"{count:,} |" for count in (all_pairs, *counts)))
    every_list = [spellings for _, some_lists in sorts for spellings in some_lists]
    best = sorted((shared(weighed(multiplier), every_list), multiplier) for multiplier in range(3, 256, 2))
    print("pairs with one key, by multiplier:", ", ".join(f"{count} for {multiplier}" for count, multiplier in best[:4]))


if __name__ == "__main__":
    main()
