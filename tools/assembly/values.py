"""Values: numbers, names, sums and differences of them."""
import re
from typing import NamedTuple

from .instructions import nearest
from .reading import NAME, Line, shown
from .wrong import Cause

DECIMAL = re.compile(r"[0-9]+")
HEX = re.compile(r"\$[0-9A-Fa-f]+")
BARE_HEX = re.compile(r"(?:0[xX])?([0-9][0-9A-Fa-f]*|[0-9A-F]+)[hH]?")
DIGITS_MAX = 20


class Defined(NamedTuple):
    value: int
    line: Line
    is_label: bool


class Names:
    """The names that a source defines."""

    def __init__(self):
        self.defined = {}

    def define(self, piece, value, is_label):
        """A label or constant, of which there is only one by its name."""
        if piece.name in self.defined:
            first = self.defined[piece.name].line
            raise Cause(f"{shown(piece.name)} is defined twice: first at {first.file}:{first.number}")
        self.defined[piece.name] = Defined(value, piece.line, is_label)

    def value(self, text, reach="defined"):
        """The number that a VALUE stands for."""
        return sum(self.number(word, reach) if sign == "+" else -self.number(word, reach) for sign, word in terms(text))

    def number(self, word, reach):
        if len(word) > DIGITS_MAX and (DECIMAL.fullmatch(word) or HEX.fullmatch(word)):
            raise Cause(f"a number has at most {DIGITS_MAX} digits")
        if HEX.fullmatch(word):
            return int(word[1:], 16)
        if DECIMAL.fullmatch(word):
            return int(word)
        if word in self.defined:
            return self.defined[word].value
        near = nearest(word, self.defined)
        raise Cause(f"{shown(word)} is not {reach}{near}" if near or NAME.fullmatch(word) else unread(word))

    def settled(self, text):
        """Whether a VALUE has only numbers and constants that are defined already."""
        words = [word for _, word in terms(text) if NAME.fullmatch(word)]
        return all(word in self.defined and not self.defined[word].is_label for word in words)


def terms(text):
    """The numbers and names of a VALUE, each with its sign."""
    first, *rest = re.split(r"([+-])", text)
    if not first:
        pattern = f": {text} in 16 bits is ${-int(text[1:]) % 65_536:04X}" if re.fullmatch("-[0-9]{1,5}", text) else ""
        raise Cause(f"a VALUE begins with no sign{pattern}")
    if "" in rest:
        raise Cause(f"{shown(text)} has a sign with nothing behind it")
    return [("+", first), *zip(rest[::2], rest[1::2])]


def unread(word):
    """Why a word is neither a number nor a name."""
    hex_, word = BARE_HEX.fullmatch(word), shown(word)
    if "," in word:
        return f"{word}: blanks stand between operands, and a number has no comma in it"
    if word.startswith("$"):
        return f"{word}: behind $ stand hex digits, and nothing else"
    if hex_:
        return f"{word} is no decimal number: hex digits stand behind a $, as ${hex_[1]}"
    return f"{word} is neither a number nor a name: a name has small letters, digits and _, and begins with no digit"
