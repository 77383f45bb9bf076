"""The cases of the comparison: words of a command line, and calls. Random cases have fixed seeds.

A case is a line in the form that `crates/bench_compare/src/main.rt` describes. Run without an
argument this lists the groups of cases.
"""

from dataclasses import dataclass
from itertools import product
from random import Random
from typing import Callable

# The words that lexopt tries in its own exhaustive test.
WORDS = [
    b"",
    b"-",
    b"--",
    b"---",
    b"a",
    b"-a",
    b"-aa",
    b"\xff",
    b"-\xff",
    b"-a\xff",
    b"-\xffa",
    b"--a",
    b"--\xff",
    b"--a=a",
    b"--a=",
    b"--a=\xff",
    b"--\xff=a",
    b"--=",
    b"--=\xff",
    b"--=a",
    b"-\xff\xff",
    b"-a=a",
    b"-a=",
    b"-=",
    b"-a-",
]

# The ends of the ranges of bytes in UTF-8, and their neighbours.
EDGES = [
    bytes([byte])
    for byte in bytes.fromhex("41 7f 80 8f 90 9f a0 bf c1 c2 df e0 e1 ed ee f0 f1 f4 f5 ff")
]

# The bytes of random words. Each has a meaning somewhere.
BYTES = list(b"--==aab019+\"\\' \t\n\r\x00\x1b\x7f\x80\x9d\x9e\xa0\xbf\xc2\xcc\xe2\xed\xf0\xff")

# Every call; and the calls of longer lists: those by which a program reads a line, and some of many
# kinds.
CALLS = "n0 u0 v0 p0 o0 s0 s1 s2 s9 r0 r1 r9 t0 t1 t9 l0 i0 i1 i2 e0 e1 c0 b0".split()
READING = "n0 v0 o0 s9".split()
MIXED = "n0 v0 o0 s2 r1 t1 i1 e0".split()

# How many random cases share a seed.
SEEDED = 20_000


def words_in_case(words):
    return "".join("." + word.hex() for word in words)


def each(words, lists, constructor="a"):
    """A case with these words for each of these lists of calls."""
    front = f"{constructor} {words_in_case(words)} "
    return front + ("\n" + front).join(lists) + "\n"


def case(words, calls, constructor="a"):
    return each(words, [calls], constructor)


def up_to(count, things):
    """All lists of at most this many of these things."""
    for length in range(count + 1):
        yield from product(things, repeat=length)


def lists_of(count, calls, front=""):
    """All lists of this many of these calls, each after the same first calls."""
    return [front + "".join(chosen) for chosen in product(calls, repeat=count)]


def all_lists(least, most, lists, constructor="a"):
    """All lists of `least` to `most` words, each with all these lists of calls."""

    def blocks(_cases):
        for words in up_to(most, WORDS):
            if len(words) >= least:
                yield len(lists), each(words, lists, constructor)

    return blocks


def edges(_cases):
    """All lists of 1 to 4 bytes over the edges, each in many places of a line."""
    cluster = ["n0n0n0n0n0", "n0v0n0", "n0n0v0n0", "u0u0u0u0u0", "n0s2n0", "n0c0n0c0v0"]
    after = ["n0n0n0n0n0n0", "n0v0n0", "n0o0n0", "n0p0n0", "n0l0n0", "e0n0s1n0"]
    for length in range(1, 5):
        for chosen in product(EDGES, repeat=length):
            text = b"".join(chosen)
            block = each([b"-" + text], cluster)
            block += each([b"-a" + text], after)
            block += each([b"-a=" + text], ["n0n0n0", "n0l0l0"])
            block += each([b"--" + text], ["n0v0n0", "u0u0"])
            block += each([b"--=" + text], ["n0n0", "n0p0"])
            block += each([text], ["u0", "p0", "n0n0"])
            block += each([text], ["b0n0"], "i")
            yield block.count("\n"), block


def numbers(_cases):
    """Values that are numbers, or nearly."""
    texts = [b"".join(text) for text in up_to(5, [b"0", b"1", b"9", b"f", b"-", b"+"])]
    for number in (1 << 31, 1 << 32, 1 << 63, 1 << 64):
        for near in range(number - 2, number + 3):
            texts += [b"%s%d" % (front, near) for front in (b"", b"+", b"-", b"0", b"+0", b"-0")]
    for text in texts:
        block = each([b"-n", text], ["n0p0"]) + each([b"--n=" + text], ["n0p0"])
        yield block.count("\n"), block


def some_words(chance):
    """One to six words of at most eight bytes. In half of the lists most begin with a dash."""
    count = chance.randrange(1, 7)
    words = [bytes(chance.choices(BYTES, k=chance.randrange(9))) for _ in range(count)]
    if chance.random() < 0.5:
        return [(chance.choice([b"-", b"-", b"--", b""]) + word)[:8] for word in words]
    return words


def by_chance(cases):
    """Random words and calls, with fixed seeds."""
    for seed in range(-(-cases // SEEDED)):
        chance = Random(seed)
        count = min(SEEDED, cases - seed * SEEDED)
        lines = []
        for _ in range(count):
            calls = chance.choices(CALLS, k=chance.randrange(13))
            lines.append(case(some_words(chance), "".join(calls), chance.choice("ai")))
        yield count, "".join(lines)


@dataclass(frozen=True)
class Group:
    title: str
    # Makes blocks of cases, each after its number of cases. Its argument is the number of random
    # cases.
    blocks: Callable


GROUPS = [
    Group("no to three words, six calls of four kinds", all_lists(0, 3, lists_of(6, READING))),
    Group("no to three words, four calls of eight kinds", all_lists(0, 3, lists_of(4, MIXED))),
    Group("no or one word, four calls of every kind", all_lists(0, 1, lists_of(4, CALLS))),
    Group("two words, three calls of every kind", all_lists(2, 2, lists_of(3, CALLS))),
    Group("three words, `next` and two calls of every kind", all_lists(3, 3, lists_of(2, CALLS, "n0"))),
    Group("no to two words by `from_iter`, three calls of every kind", all_lists(0, 2, lists_of(3, CALLS), "i")),
    Group(
        "three words by `from_iter`, `bin_name` and two calls of every kind",
        all_lists(3, 3, lists_of(2, CALLS, "b0"), "i"),
    ),
    Group("lists of 1 to 4 bytes over the edges of UTF-8", edges),
    Group("values that are numbers, or nearly", numbers),
    Group("random words and calls", by_chance),
]

if __name__ == "__main__":
    for group in GROUPS:
        print(group.title)
