"""Tables made here, for what the fonts at hand lack: old and rare versions, every format of a cmap, the largest tables, all of them
good; and the tables of a font without glyphs, which are not."""
import struct

from .damage import SUBTABLES, put
from .sfnt import Facts

FEW = Facts(glyphs=3, metrics=2, loca_format=0, outlines=100)
NONE = Facts(glyphs=0, metrics=0, loca_format=0, outlines=0)
MOST = Facts(glyphs=65_535, metrics=65_535, loca_format=1, outlines=65_000 * 65_535)

FILL = b"\xA5"     # where it does not matter what stands


def tables():
    """Triples of a table's tag, the table and its facts."""
    for version, length in ((0, 68), (0, 78), (1, 86), (2, 96), (5, 100), (4, 70_000)):
        yield "OS/2", struct.pack(">HhHH", version, 500, 400, 5).ljust(length, FILL), FEW
    yield "post", struct.pack(">I28x", 0x10000), FEW
    yield "post", struct.pack(">I28xH3b", 0x25000, FEW.glyphs, 0, 1, -1), FEW
    yield "post", struct.pack(">I28xH", 0x20000, MOST.glyphs).ljust(140_000, FILL), MOST
    yield "post", struct.pack(">I28xH", 0x25000, MOST.glyphs).ljust(70_000, FILL), MOST
    yield "cmap", bytes(4), FEW
    yield "cmap", mapping([(kind, least) for kind, (_, _, least) in SUBTABLES.items()]), FEW
    yield "cmap", mapping([(4, 16)]), FEW
    yield "cmap", mapping([(6, 10)], times=300), FEW
    yield "cmap", mapping([(4, 30_000), (12, 40_000)]), FEW
    yield "cmap", mapping([(4, 16), (12, 65_536)]), FEW
    yield "hmtx", bytes(2 * (MOST.metrics + MOST.glyphs)), MOST
    yield "hmtx", bytes(140_000), FEW
    yield "hmtx", bytes(80_000), FEW._replace(glyphs=20_000, metrics=20_000)
    yield "loca", struct.pack(">4H", 0, 10, 10, 50), FEW
    yield "loca", struct.pack(">4I", 0, 20, 20, 100).ljust(400_000, FILL), FEW._replace(loca_format=1)
    yield "loca", struct.pack(">16371I", *range(16_371)), MOST._replace(glyphs=16_370)
    yield "loca", struct.pack(">65536H", *range(65_536)), MOST._replace(loca_format=0)
    yield "loca", struct.pack(">65536I", *range(0, 65_000 * 65_536, 65_000)), MOST


def without_glyphs():
    """The same of a font that has no glyphs, or of which a host told no facts: tables that would be in order but for that."""
    yield "hhea", struct.pack(">HH32x", 1, 0), NONE
    yield "hmtx", b"", NONE
    yield "post", struct.pack(">I28xH", 0x20000, 0), NONE
    yield "post", struct.pack(">I28xH", 0x25000, 0), NONE
    yield "loca", bytes(2), NONE


def mapping(subtables, times=1):
    """A cmap of subtables, each given by its format and its length. Its records name the last one first, and all
    of them so many times."""
    records, bodies = b"", b""
    for kind, length in subtables:
        records = struct.pack(">HHI", 3, 1, 4 + 8 * len(subtables) * times + len(bodies)) + records
        place, width, _ = SUBTABLES[kind]
        bodies += put(put(FILL * length, 0, 2, kind), place, width, length)
    return struct.pack(">HH", 0, len(subtables) * times) + records * times + bodies
