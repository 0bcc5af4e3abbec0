"""The table of first bytes and the names, as they stand in the sources: the bytes of crates/shapes/src/table.rt, which are proved to be the table that the
opcode definition gives, and the list of crates/names/specs/Names.antt."""
import re

from sources import crates

TABLE = crates.TOP / "crates" / "shapes" / "src" / "table.rt"
NAMES = crates.TOP / "crates" / "names" / "specs" / "Names.antt"
ILLEGAL = "illegal"


class Unread(Exception):
    """A table or a list in a form that is not read here."""


def only(form, text, what):
    """The parts of the one place in a text that has this form."""
    found = list(re.finditer(form, text, re.MULTILINE))
    if len(found) != 1:
        raise Unread(f"{what} is not in the form that is read here")
    return found[0].groups()


def rows_in(source):
    """The rows of the table in a source."""
    size, lines = only(r'^const ROWS: \[u8; (\d+)\] = \*b"\\\n((?:(?:\\x[0-9a-f]{2})+\\\n)+)";$', source, "the table of first bytes")
    numbers = [int(digits, 16) for digits in re.findall(r"\\x(..)", lines)]
    if len(numbers) != int(size) or len(numbers) % 3 != 0:
        raise Unread(f"the table of first bytes has {len(numbers)} numbers")
    return [row if row[0] > 0 else ILLEGAL for row in zip(numbers[0::3], numbers[1::3], numbers[2::3])]


def names_in(definitions):
    """The names of the list in some definitions."""
    lines = only(r"^names =\n((?: +\S.*\n)+)", definitions, "the list of names")[0]
    bare = " ".join(re.sub(r"^ +--.*$", "", lines, flags=re.MULTILINE).split())
    names = only(r'^((?:"[^"]*" ∷ )+)\[\]$', bare, "the list of names")[0]
    return re.findall(r'"([^"]*)"', names)


def rows():
    """Of each first byte: length, taken, pushed; or ILLEGAL."""
    read = rows_in(TABLE.read_text(encoding="utf-8"))
    if len(read) != 256:
        raise Unread(f"{len(read)} rows")
    return read


def names():
    """The name of each first byte that can begin an instruction: the codes 00 to 5A, then 80 and C0, which stand for 80 to BF and C0 to FF."""
    read = names_in(NAMES.read_text(encoding="utf-8"))
    if len(read) != 0x5D:
        raise Unread(f"{len(read)} names")
    return {byte: read[0x5B if 0x80 <= byte < 0xC0 else 0x5C if byte >= 0xC0 else byte] for byte in range(256) if not 0x5B <= byte < 0x80}
