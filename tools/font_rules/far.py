"""Tables made here, good and bad, that reach just up to the end of the bytes lent at a time, or past it: a rule must ask for what it
has not seen, and find it at its place."""
import itertools
import struct

from .damage import SUBTABLES, put
from .lending import PIECE
from .made import FEW, FILL, mapping
from .sfnt import Facts

OUTSIDE = 0xFFFFFFFF


def tables():
    """Triples of a table's tag, the table and its facts."""
    for table in itertools.chain(far_subtables(), far_records()):
        yield "cmap", table, FEW
    for width in (2, 4):
        for end in range(PIECE, 65_536 * width, PIECE):
            for length in range(end - 5, end + 6):
                yield from locas(width, length)


def far_subtables():
    """Cmaps with one subtable that begins far into the table, or ends there."""
    for place in (PIECE - 10, PIECE - 9, PIECE - 1, PIECE, PIECE + 1, 65_535, 65_536, 65_537, 2 * PIECE - 5, 1 << 17, (1 << 24) + 3):
        for kind, (_, _, least) in SUBTABLES.items():
            for length in (least - 1, least, least + 1):
                yield far_cmap(place, kind, length, room=least)
        for kind, length, room in ((12, 1 << 24, 1 << 17), (5, 10, 10), (15, 10, 10), (6, 10, 9)):
            yield far_cmap(place, kind, length, room)
        for past in (place + 10, place + 11, place + 65_536):
            yield put(far_cmap(place, 6, 10, room=10), 8, 4, past)
    for length in (1 << 24, (1 << 24) + 1, 1 << 25):
        yield far_cmap(12, 12, length, room=1 << 24)


def far_records():
    """Cmaps with records far into the table; last one with as many as there can be, which costs most."""
    for count in (*range(PIECE // 8 - 2, PIECE // 8 + 3), *range(8190, 8195), 20_000):
        table = records_alone(count)
        last = 4 + 8 * (count - 1)
        yield table
        yield table[:-1]
        for record in (last, 4 + 8 * (count // 2)):
            for offset in (0, last - 8, last, len(table) - 10, len(table) - 9, OUTSIDE):
                yield put(table, record + 4, 4, offset)
    for distance in (1 << 16, 1 << 17):
        for before in range(3):
            place = 12 + distance - before
            yield echoed_cmap(place, before, offset=place, echo=OUTSIDE)
            yield echoed_cmap(place, before, offset=OUTSIDE, echo=place)
    yield mapping([(6, 10)], times=PIECE // 8)
    yield mapping([(12, 16)], times=65_535)


def far_cmap(place, kind, length, room):
    """A cmap with one subtable: where it begins, its format, the length it states, and how many bytes it has."""
    place_of_length, width, _ = SUBTABLES.get(kind, SUBTABLES[6])
    body = put(put(FILL * room, 0, 2, kind), place_of_length, width, length)
    return struct.pack(">HHHHI", 0, 1, 3, 1, place).ljust(place, FILL) + body


def echoed_cmap(place, before, offset, echo):
    """A cmap of two records. The subtable of the first begins 65,536 bytes or twice as many behind the second record, less a few, so
    that in two bytes both places are nearly one; what would be the second record there has another offset."""
    body = put(struct.pack(">HH6x", 6, 10), before + 4, 4, echo)
    return struct.pack(">HHHHIHHI", 0, 2, 3, 1, place, 3, 10, offset).ljust(place, FILL) + body


def records_alone(count):
    """A cmap whose records all point to the first of them, which is itself a subtable: of format 6, ten bytes long."""
    return struct.pack(">HH", 0, count) + struct.pack(">HHI", 6, 10, 4) * count


def locas(width, length):
    """Locas of a length, with as many offsets as that has room for: a good one, and bad ones that differ in one offset."""
    count = length // width
    facts = Facts(glyphs=count - 1, metrics=1, loca_format=width // 4, outlines=2 * count)
    table = struct.pack(f">{count}{'H' if width == 2 else 'I'}", *range(count)).ljust(length, FILL)
    yield "loca", table, facts
    yield "loca", put(table, width * (count - 1), width, count - 3), facts
    yield "loca", table, facts._replace(outlines=(count - 1) * (4 // width) - 1)
    for index in range(PIECE // width - 1, count, PIECE // width):
        yield "loca", put(table, width * index, width, index + 2), facts
