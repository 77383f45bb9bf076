"""The workloads of the benchmark. Each makes the words of a command line of a given size, always
the same ones.

Run without an argument this lists them. With a number it writes the words of that one, each ended
by a NUL.
"""

import sys
from dataclasses import dataclass, field
from itertools import cycle, islice
from typing import Callable

MIB = 1 << 20

# By work: the bound of the geometric mean of its rows.
MEANS = {"parsed": 0.8}

# The bound of the cost of completing a word, over that of reading the words before it.
COMPLETED = 1.2

A_LINE = [
    b"-v",
    b"-n",
    b"10",
    b"--name=report",
    b"-abc",
    b"--shout",
    b"--name",
    b"summary",
    b"-n5",
    b"notes.txt",
    b"todo.txt",
    b"my file.txt",
]

# Latin-1, a truncated character, a byte that cannot begin a character, and a surrogate.
DAMAGED_NAMES = [
    b"--caf\xe9",
    b"--note\xf0\x9f\x92",
    b"--re\xffport",
    b"--\xed\xa0\x80size=10",
    b"-\xff",
    b"-a\xe2\x82",
]

DAMAGED_VALUES = [
    b"--name=caf\xe9",
    b"--name",
    b"note\xf0\x9f\x92",
    b"-nre\xffport",
    b"-n=\xed\xa0\x80size",
    b"\xff.txt",
]


# Why a row may cost more.
OF_ERRORS = (
    "An `Error` has room for its cause, some 300 bytes. The function with the loop has at least one of them, and zeroes it once "
    "for each line."
)
OF_EMPTY_WORDS = (
    "A word that is taken leaves an empty word in its place, which is written, and dropped at the end. This costs some 10 "
    "instructions. The owning iterator of a `Vec` would leave no word, but that of Rattle's std cannot lend the unread words as "
    "one slice."
)
OF_ASKING = "`Env::arg` copies a word byte by byte ([asking](#whole-processes)), and the port then copies it once more."


def repeated(words):
    """As many words as are asked for: these, over and over."""
    return lambda size: list(islice(cycle(words), size))


def after(front, words):
    """One word, and after it as many words as are asked for: these, over and over."""
    return lambda size: [front, *islice(cycle(words), size)]


def one_word(front, text):
    """One word: this front, and as many bytes of the repeated text as are asked for."""
    return lambda size: [front + (text * (size // len(text) + 1))[:size]]


@dataclass(frozen=True)
class Workload:
    title: str  # as in the table, with {size} for the size
    size: int
    words: Callable[[int], list]
    work: str = "next"  # the calls that both programs make: an argument of theirs
    times: int = 2  # the number of reads over which the cost of one is counted
    is_timed: bool = False  # whether its time is measured too
    is_declared: bool = False  # whether its words are read by declared options too
    # By work: its bound, if that is not 1.0, and the reason.
    bounds: dict = field(default_factory=dict)

    @property
    def works(self):
        """The works that are counted. What `next` reads is also read by a table of options."""
        works = ["next", "items"] if self.work == "next" else [self.work]
        return works + ["parsed"] if self.is_declared else works

    def bound(self, work):
        """The greatest ratio without the copy that is allowed, and the reason."""
        return self.bounds.get(work, (1.0, ""))

    @property
    def is_spelled(self):
        """Whether the items that a table reads are spelled too."""
        return "items" in self.works


WORKLOADS = [
    Workload(
        "a typical line of {size} words",
        12,
        repeated(A_LINE),
        times=100,
        is_declared=True,
    ),
    Workload("{size} positionals", 10_000, repeated([b"file.txt"]), is_declared=True),
    Workload("{size} words `--name=value`", 10_000, repeated([b"--name=value"]), is_declared=True),
    Workload(
        "{size} words, `-n value` repeated",
        20_000,
        repeated([b"-n", b"value"]),
        is_declared=True,
    ),
    Workload("{size} words, `file.txt -v` repeated", 10_000, repeated([b"file.txt", b"-v"])),
    Workload("a cluster of {size} letters", 100_000, one_word(b"-", b"abcdefghijklm")),
    Workload(
        "a cluster of {size} bytes, two-byte letters",
        200_000,
        one_word(b"-", "äöüßéèñ".encode()),
    ),
    Workload("a value of {size} bytes", MIB, one_word(b"--name=", b"value"), is_timed=True),
    Workload("a name of {size} bytes", MIB, one_word(b"--", b"name")),
    Workload("{size} words with damaged names", 12_000, repeated(DAMAGED_NAMES)),
    Workload("{size} words with damaged values", 12_000, repeated(DAMAGED_VALUES)),
    Workload("a name of {size} damaged bytes", 100_000, one_word(b"--", b"\xff")),
    Workload("a cluster of {size} damaged bytes", 100_000, one_word(b"-", b"\xff")),
    Workload("{size} empty words", 10_000, repeated([b""])),
    Workload("`-n` and {size} values", 10_000, after(b"-n", [b"value"]), work="values"),
    Workload(
        "{size} words taken unread",
        10_000,
        repeated(A_LINE),
        work="raw",
        bounds={"raw": (1.15, OF_EMPTY_WORDS)},
    ),
    Workload("{size} numbers parsed", 10_000, repeated([b"10", b"4096", b"65535", b"1000000007"]), work="parse"),
    Workload(
        "no words",
        0,
        repeated([b""]),
        times=100,
        is_declared=True,
        bounds={"next": (1.2, OF_ERRORS)},
    ),
    Workload("{size} positionals, by `from_args`", 10_000, repeated([b"file.txt"]), work="collected"),
    Workload(
        "{size} words, `-n value` repeated, by a function that can fail",
        20_000,
        repeated([b"-n", b"value"]),
        work="fallible",
    ),
    Workload(
        "a typical line of {size} words, by a function that can fail",
        12,
        repeated(A_LINE),
        work="fallible",
        times=100,
    ),
    Workload("{size} words `-ovalue`", 10_000, repeated([b"-ovalue"]), work="items"),
    Workload(
        "`-x` and {size} values",
        10_000,
        after(b"-x", [b"value"]),
        work="items",
    ),
    Workload("{size} words, `-x=a b` repeated", 10_000, repeated([b"-x=a", b"b"]), work="items"),
]

# Words that are given to a process. Linux allows 131,071 bytes in a word.
PROCESSES = [
    Workload("no words", 0, repeated([]), work="read", is_declared=True),
    Workload(
        "a typical line of {size} words", 12, repeated(A_LINE), work="read", is_declared=True
    ),
    Workload(
        "{size} positionals",
        20_000,
        repeated([b"file.txt"]),
        work="read",
        is_declared=True,
        bounds={"read": (1.1, OF_ASKING), "parsed": (1.25, OF_ASKING)},
    ),
    Workload(
        "{size} words of typical lines",
        20_000,
        repeated(A_LINE),
        work="read",
        is_declared=True,
        bounds={"parsed": (1.1, OF_ASKING)},
    ),
    Workload(
        "{size} words of 130,000 bytes",
        3,
        repeated([b"x" * 130_000]),
        work="read",
        is_declared=True,
        bounds={"read": (8.5, OF_ASKING), "parsed": (8.5, OF_ASKING)},
    ),
]


def input_of(workload, size):
    """The input of both programs."""
    return b"".join(word + b"\0" for word in workload.words(size))


if __name__ == "__main__":
    if len(sys.argv) > 1:
        chosen = WORKLOADS[int(sys.argv[1])]
        sys.stdout.buffer.write(input_of(chosen, chosen.size))
    else:
        for number, workload in enumerate(WORKLOADS):
            print(number, workload.title.format(size=f"{workload.size:,}"))
