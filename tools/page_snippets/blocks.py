"""The snippets of a page: its fenced blocks, and the lines of its indented ones."""
import re
from typing import NamedTuple

FENCE = re.compile(r"([ \t]*)(`{3,}|~{3,})(.*)")
UNSEEN = re.compile(r".*(?:`{3}|~{3}|<pre\b).*", re.IGNORECASE)
LISTED = re.compile(r" *(?:[-*+]|[0-9]+[.)]) +")
INDENT = 4


class Fault(Exception):
    """What is wrong, and at which line of the page."""

    def __init__(self, line, cause):
        super().__init__(cause)
        self.line = line


class Fenced(NamedTuple):
    line: int                           # of the opening fence
    info: list                          # the words behind it
    lines: list


class Indented(NamedTuple):
    """A line of an indented block."""
    line: int
    text: str


def snippets(text):
    """All of them, in the order of the page."""
    lines = text.split("\n")
    blocks = list(fenced(lines))
    for block in blocks:
        first, end = block.line - 1, block.line + len(block.lines) + 1
        lines[first:end] = [lines[first]] * (end - first)
    return sorted([*blocks, *indented(lines)], key=lambda snippet: snippet.line)


def fenced(lines):
    opened, indent = None, 0
    for number, line in enumerate(lines, 1):
        fence = FENCE.fullmatch(line)
        if fence and fence[2] != "```":
            raise Fault(number, "a block is fenced with three backquotes")
        if opened and fence and fence[3].strip():
            raise Fault(number, f"a block begins inside that of line {opened.line}")
        if opened and fence:
            yield opened
            opened = None
        elif opened:
            opened.lines.append(line[min(indent, len(line) - len(line.lstrip(" \t"))):])
        elif not fence and UNSEEN.fullmatch(line):
            raise Fault(number, "a block is fenced with three backquotes, and nothing but blanks before them")
        elif fence:
            opened, indent = Fenced(number, fence[3].split(), []), len(fence[1])
    if opened:
        raise Fault(opened.line, "the block does not end")


def indented(lines):
    """The lines that stand four blanks or more to the right of the text, in a list of the item's text, and do not go on with a paragraph."""
    code, item, ended = False, 0, True
    for number, line in enumerate((line.expandtabs(INDENT) for line in lines), 1):
        indent, listed = len(line) - len(line.lstrip(" ")), LISTED.match(line)
        if line.strip() and indent >= item + INDENT and (code or ended):
            code = True
            yield Indented(number, line.strip())
        elif line.strip():
            code = False
            item = listed.end() if listed else item if indent else 0
        ended = not line.strip() or line.startswith("#") or bool(FENCE.fullmatch(line))
