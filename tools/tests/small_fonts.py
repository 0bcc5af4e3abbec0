"""Small fonts, built table by table: their directories are right, and what is in their tables does not matter."""
import struct

SFNT = b"\0\1\0\0"


def directory(places, kind=SFNT):
    """The header and directory of a face, from the tag, offset and length of each of its tables."""
    records = b"".join(struct.pack(">4sIII", tag.encode("latin-1"), 0, offset, length) for tag, offset, length in places)
    return kind + struct.pack(">HHHH", len(places), 0, 0, 0) + records


def font(tables, kind=SFNT):
    """A font of tables by tag; its last byte is the last of the last table."""
    at = len(directory([(tag, 0, 0) for tag in tables]))
    places = []
    for tag, table in tables.items():
        places.append((tag, at, len(table)))
        at += len(table)
    return directory(places, kind) + b"".join(tables.values())


def collection(faces, version=1):
    """A collection of faces, each given by its tables. Equal tables are there once."""
    signature = bytes(12) if version == 2 else b""
    at = 12 + 4 * len(faces) + len(signature) + sum(12 + 16 * len(tables) for tables in faces)
    places, bodies = {}, b""
    for table in (table for tables in faces for table in tables.values()):
        if table not in places:
            places[table] = at + len(bodies)
            bodies += table
    directories = [directory([(tag, places[table], len(table)) for tag, table in tables.items()]) for tables in faces]
    starts = [12 + 4 * len(faces) + len(signature) + sum(map(len, directories[:index])) for index in range(len(faces))]
    header = b"ttcf" + struct.pack(f">HHI{len(faces)}I", version, 0, len(faces), *starts)
    return header + signature + b"".join(directories) + bodies
