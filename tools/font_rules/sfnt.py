"""Font files: their faces, the tables of each face, and the facts that a rule is told of the other tables.

A file is read once, and a table is a view of its bytes: the faces of a collection that share a table share its bytes here too.
Nothing is taken to be there that is not: what ends past the end of the file is refused, never shortened."""
import pathlib
import struct
from typing import NamedTuple

HEADER = 12         # the bytes of a header before its table directory, or before the faces of a collection
RECORD = 16         # the bytes of a table's record in the directory

FONTS = (b"\0\1\0\0", b"OTTO", b"true")
COLLECTION = b"ttcf"
COMPRESSED = {b"wOFF": "WOFF", b"wOF2": "WOFF2"}


class Unreadable(ValueError):
    """A file that is no font, or not a whole one: a line that names the file and the cause."""


class Face(NamedTuple):
    """A font of its own in a file."""
    name: str           # for people: the file's name, and in a collection which face it is, from 0 on
    tables: dict        # a view of the bytes of each table, by tag


class Facts(NamedTuple):
    """What a rule is told of the other tables of its font; 0 where the font has no such table, or a shorter one."""
    glyphs: int         # numGlyphs of maxp
    metrics: int        # numberOfHMetrics of hhea
    loca_format: int    # indexToLocFormat of head
    outlines: int       # the length of glyf


def faces(path):
    """The faces of a font file: one, or those of a collection in order."""
    path = pathlib.Path(path)
    try:
        file = memoryview(path.read_bytes())
    except OSError as error:
        raise Unreadable(f"{path}: {error.strerror}") from error
    if not file:
        raise Unreadable(f"{path.name}: the file is empty")
    if bytes(file[:4]) != COLLECTION:
        return [face(path.name, file, 0)]
    return [face(f"{path.name}#{index}", file, at) for index, at in enumerate(directories(path.name, file))]


def directories(name, file):
    """Where each face of a collection begins."""
    major, minor, count = struct.unpack_from(">4xHHI", part(name, file, "header", 0, HEADER))
    if (major, minor) not in ((1, 0), (2, 0)):
        raise Unreadable(f"{name}: a collection of version {major}.{minor}, which is neither 1.0 nor 2.0")
    if not count:
        raise Unreadable(f"{name}: a collection of no faces")
    offsets = part(name, file, f"the places of {count} faces", HEADER, 4 * count)
    if major == 2:
        part(name, file, "the place of the signature", HEADER + 4 * count, 12)
    return [offset for offset, in struct.iter_unpack(">I", offsets)]


def face(name, file, at):
    """The face whose header is at an offset of its file."""
    kind = bytes(file[at:at + 4])
    if kind in COMPRESSED:
        raise Unreadable(f"{name}: a {COMPRESSED[kind]} file, whose tables are compressed: it must be unpacked first")
    if len(kind) == 4 and kind not in FONTS:
        raise Unreadable(f"{name}: no font begins with the bytes {kind.hex(' ')}")
    count, = struct.unpack_from(">4xH", part(name, file, "header", at, HEADER))
    directory = part(name, file, f"directory of {count} tables", at + HEADER, RECORD * count)
    tables = {}
    for tag, _, offset, length in struct.iter_unpack(">4sIII", directory):
        if tag.decode("latin-1") in tables:
            raise Unreadable(f"{name}: two tables {shown(tag)}")
        tables[tag.decode("latin-1")] = part(name, file, f"table {shown(tag)}", offset, length)
    return Face(name, tables)


def part(name, file, what, offset, length):
    """A part of a file, which must be inside it."""
    if offset + length > len(file):
        raise Unreadable(f"{name}: {what}: bytes {offset} to {offset + length}, and the file has {len(file)}")
    return file[offset:offset + length]


def shown(tag):
    """A tag on one line: as it stands, or byte by byte where it is not of printable characters."""
    return tag.decode("ascii") if tag.isascii() and tag.decode("ascii").isprintable() else tag.hex(" ")


def facts(tables):
    """The facts of a font with these tables."""
    return Facts(
        glyphs=field(tables, "maxp", 4),
        metrics=field(tables, "hhea", 34),
        loca_format=field(tables, "head", 50),
        outlines=len(tables.get("glyf", b"")),
    )


def field(tables, tag, offset):
    """A number of two bytes of a table."""
    table = tables.get(tag, b"")
    return struct.unpack_from(">H", table, offset)[0] if offset + 2 <= len(table) else 0
