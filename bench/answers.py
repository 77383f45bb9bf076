"""The results that both programs of the comparison print."""

import re
from dataclasses import dataclass

# The calls, by their letters in a case.
CALLS = {
    "n": "next",
    "u": "unexpected",
    "v": "value",
    "p": "conversions of a value",
    "o": "optional_value",
    "s": "values",
    "r": "raw_args",
    "t": "try_raw_args",
    "l": "peek and as_slice",
    "i": "next_if",
    "e": "set_short_equals",
    "c": "clone",
    "b": "bin_name",
}

# What comes before the value in the message of an error, and what comes after it. `%s` is the
# option, as it is.
AROUND = {
    "A": (b"unexpected argument ", rb""),
    "U": (b"unexpected argument for option '%s': ", rb""),
    "N": (b"argument is invalid unicode: ", rb""),
    "F": (b"cannot parse argument ", rb": [a-z ]*$"),
}


def quoted(text):
    """The quoted form of bytes, as docs/formats.md describes it."""
    named = {"\t": "\\t", "\n": "\\n", "\r": "\\r", "\0": "\\0", '"': '\\"', "\\": "\\\\"}

    def piece(character):
        code = ord(character)
        if character in named:
            return named[character]
        if code < 0x20 or code == 0x7F:
            return f"\\u{{{code:x}}}"
        # Python's form of a byte that is not UTF-8.
        if 0xDC80 <= code <= 0xDCFF:
            return f"\\x{code - 0xDC00:02X}"
        return character

    return f'"{"".join(map(piece, text.decode("utf-8", "surrogateescape")))}"'.encode()


@dataclass(frozen=True)
class Answer:
    letter: str
    fields: tuple
    message: bytes

    def has_value(self):
        return self.letter in AROUND

    @property
    def value(self):
        return self.fields[-1]

    def around_the_value(self):
        """The parts of the message before the value and after it."""
        front, after = AROUND[self.letter]
        if b"%s" in front:
            front %= self.fields[0]
        return front, re.search(after, self.message)[0]


def answers_of(text):
    """The results in a text, in order."""
    found = []
    for letter, fields, message in re.findall(r'([A-Z-])((?::[0-9a-f]*)*)("[0-9a-f]*)?', text.decode()):
        fields = tuple(bytes.fromhex(field) for field in fields.split(":")[1:])
        found.append(Answer(letter, fields, bytes.fromhex(message[1:])))
    return found
