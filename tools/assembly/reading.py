"""A source read: its labels, constants and instructions in order, with what it includes in its place, each with the line it stands on."""
import contextlib
import os
import pathlib
import re
from typing import NamedTuple, Optional

from .wrong import Cause, Unread, Wrong

NAME = re.compile(r"[a-z_][a-z0-9_]*")
INCLUDE = re.compile(r"include(?:\s+(?![:=])(.*))?")
LABEL = re.compile(r"([^:=]*?)\s*:\s*(.*)")
CONSTANT = re.compile(r"([^=]*?)\s*=\s*(.*)")
ADDRESSED = re.compile(r"([0-9A-F]{4})(?:\s+(.*))?")
SOURCE_MAX = 1 << 22
DEPTH_MAX = 32
SHOWN_MAX = 80


class Line(NamedTuple):
    """A line of a source, without its comment."""
    file: str
    number: int
    text: str
    by: Optional["Line"]                # the line that includes this file

    def told(self, cause):
        return f"{self.file}:{self.number}: {shown(self.text)}: {cause}{included(self.by)}"


class Label(NamedTuple):
    line: Line
    name: str


class Constant(NamedTuple):
    line: Line
    name: str
    value: str


class Instruction(NamedTuple):
    line: Line
    address: Optional[int]              # as the line states it
    name: str
    operands: list


def pieces(file):
    """The labels, constants and instructions of a source and its includes. The file - is standard input."""
    yield from of_file(pathlib.Path(file), None, ())


def of_file(path, by, above):
    above = (*above, os.path.realpath(path))
    for number, text in enumerate(lines(path, by), 1):
        line = Line(known(path), number, text.split("#")[0].strip(), by)
        with told(line):
            yield from of_line(line, path, above)


def of_line(line, path, above):
    rest = line.text
    if "\0" in rest:
        raise Cause("a byte 00 is no text")
    include, label = INCLUDE.fullmatch(rest), LABEL.fullmatch(rest)
    while label and not include:
        yield Label(line, named(label[1], ":"))
        rest = label[2]
        include, label = INCLUDE.fullmatch(rest), LABEL.fullmatch(rest)
    if include:
        yield from of_file(file_included(include[1], path, above), line, above)
    elif rest:
        yield stated(line, rest)


def stated(line, text):
    """The constant or instruction of a line."""
    constant = CONSTANT.fullmatch(text)
    if constant:
        return Constant(line, named(constant[1], "="), one_value(constant[2]))
    addressed = ADDRESSED.fullmatch(text)
    if addressed and not addressed[2]:
        raise Cause("no instruction stands behind the address")
    name, *operands = (addressed[2] if addressed else text).split()
    return Instruction(line, int(addressed[1], 16) if addressed else None, name, unspaced(operands))


def file_included(name, path, above):
    """The file that an include names, which stands beside the one that has the line."""
    if not name:
        raise Cause("include takes a file's name")
    file = path.parent / name
    if os.path.realpath(file) in above:
        raise Cause(f"{file} would include itself")
    if len(above) > DEPTH_MAX:
        raise Cause(f"files are included more than {DEPTH_MAX} deep")
    return file


def named(word, sign):
    """A word that is a name; where it is none, how a name is written."""
    if NAME.fullmatch(word):
        return word
    if not word:
        raise Cause(f"a name is missing before {sign}")
    like = re.sub(r"[^a-z0-9_]+", "_", word.lower())
    like = "_" + like if like[0].isdigit() else like
    raise Cause(f"{shown(word)} is no name: a name has small letters, digits and _, and begins with no digit, as {shown(like)}")


def one_value(text):
    words = unspaced(text.split())
    if len(words) != 1:
        raise Cause("a VALUE is missing behind =" if not words else f"one VALUE stands behind =, and here are {len(words)}")
    return words[0]


def unspaced(words):
    """The words, none of them a part of a sum that is written with blanks."""
    if any(before[-1] in "+-" or behind[0] in "+-" for before, behind in zip(words, words[1:])):
        together = re.sub(r"\s*([+-])\s*", r"\1", " ".join(words))
        raise Cause(f"a VALUE has no blanks in it, as {shown(together)}, and begins with no sign")
    return words


def lines(path, by):
    """The lines of a file, however they end."""
    try:
        data = contents(path)
    except (OSError, ValueError) as error:
        cause = f"{shown(known(path))}: {getattr(error, 'strerror', None) or error}"
        raise Unread(by.told(cause) if by else cause) from None
    if len(data) > SOURCE_MAX:
        raise Unread(f"{known(path)}: over {SOURCE_MAX:,} bytes, too long for a source{included(by)}")
    try:
        return re.split("\r\n|\r|\n", data.decode("utf-8-sig"))
    except UnicodeDecodeError as error:
        number = error.object[:error.start].count(b"\n") + 1
        other = ": is it a program? khx list shows one" if b"\0" in data else ""
        cause = f"byte {error.object[error.start]:02X} is not UTF-8 text{other}"
        raise Unread(f"{known(path)}:{number}: {cause}{included(by)}") from None


def contents(path):
    with open(0 if str(path) == "-" else path, "rb", closefd=str(path) != "-") as file:
        return file.read(SOURCE_MAX + 1)


def known(path):
    return "standard input" if str(path) == "-" else str(path)


def included(by):
    """By which lines a file is included, in words."""
    places = []
    while by:
        places.append(f"{by.file}:{by.number}")
        by = by.by
    return f" (included by {', by '.join(places)})" if places else ""


def shown(text):
    """A text on one line, not over long."""
    text = "".join(sign if sign.isprintable() else " " if sign == "\t" else repr(sign)[1:-1] for sign in text)
    return text if len(text) <= SHOWN_MAX else text[:SHOWN_MAX] + ".."


@contextlib.contextmanager
def told(line):
    """What is wrong within is told with the line."""
    try:
        yield
    except Cause as cause:
        raise Wrong(line.told(cause)) from None
