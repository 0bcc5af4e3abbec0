"""docs/STATEMENTS.md as data: which functions it names, which of them it calls inner, and the must-fail edits that it names."""
import re
from typing import NamedTuple

from sources import crates

PAGE = crates.TOP / "docs" / "STATEMENTS.md"
ROW = re.compile(r"\|\s*`(?P<crate>\w+)::(?P<name>[\w:]+)`(?P<inner> \(inner\))?\s*\|")
NAME = re.compile(r"`(\w+)`")


class Row(NamedTuple):
    """A row of a table of functions: the function, whether it is inner, and the edits in its last column."""
    crate: str
    function: str
    inner: bool
    edits: list
    cell: str


def outside_brackets(text):
    return re.sub(r"\([^()]*\)", "", text)


def rows(text):
    read = []
    for line in text.split("\n"):
        found = ROW.match(line)
        if found:
            cell = line.strip().strip("|").split("|")[-1].strip()
            name = f"{found.group('crate')}::{found.group('name')}"
            read.append(Row(found.group("crate"), name, bool(found.group("inner")), NAME.findall(outside_brackets(cell)), cell))
    return read


def of_crates(text):
    """The edits of crates without functions: a crate, a colon, and its edits with commas between them."""
    flat = " ".join(text.split())
    listed = re.compile(r"`(\w+)`: (`\w+`(?: \([^()]*\))?(?:, `\w+`(?: \([^()]*\))?)*)")
    return [(found.group(1), edit) for found in listed.finditer(flat) for edit in NAME.findall(outside_brackets(found.group(2)))]


def named(text):
    """Every function that the page names, in a row or beside others."""
    return set(re.findall(r"`(\w+::[\w:]+)`", text))
