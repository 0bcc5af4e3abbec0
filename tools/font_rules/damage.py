"""Damaged copies of a table: every field that a rule looks at below, at and above its limits, what stands where the bytes lent at a
time end, other lengths, other facts, and random bytes. Not every copy is bad: which are is for opentype.py to say."""
import struct

from .lending import PIECE

# field by field: where it is, how many bytes it has, and what it is set to; also what stands beside it and does not matter
FIELDS = {
    "head": [
        (0, 4, (0, 0xFFFF, 0x10000, 0x10001, 0x10100, 0x20000, 0x20100, 0x2FFFF, 0x1000000)),
        (12, 4, (0, 0x5F0F3CF4, 0x5F0F3CF5, 0x5F0F3CF6, 0x5E0F3CF5, 0x5F103CF5, 0x5F0F3DF5, 0xF53C0F5F)),
        (18, 2, (0, 15, 16, 17, 1000, 16_383, 16_384, 16_385, 65_535)),
        (20, 1, (255,)),
        (50, 2, (0, 1, 2, 255, 256, 257, 65_535)),
        (52, 2, (0, 1, 256, 65_535)),
    ],
    "maxp": [
        (0, 4, (0, 0x5000, 0x5001, 0x4FFF, 0x10000, 0x10001, 0x15000, 0x20000, 0x20100, 0x2FFFF, 0x1004000, 0x1004F00)),
        (4, 2, (0, 1, 255, 256, 65_535)),
    ],
    "hhea": [
        (0, 4, (0, 0xFFFF, 0x10000, 0x10001, 0x20000, 0x20100, 0x2FFFF)),
        (32, 2, (0, 1, 256)),
        (34, 2, (0, 1, 65_535)),
    ],
    "hmtx": [
        (0, 2, (0, 65_535)),
    ],
    "OS/2": [
        (0, 2, (0, 1, 2, 3, 4, 5, 6, 256, 261, 65_535)),
        (2, 2, (0, 65_535)),
        (4, 2, (0, 1, 255, 256, 999, 1000, 1001, 65_535)),
        (6, 2, (0, 1, 9, 10, 256, 65_535)),
        (8, 1, (255,)),
    ],
    "post": [
        (0, 4, (0, 0x10000, 0x15000, 0x20000, 0x20001, 0x24F00, 0x25000, 0x25001, 0x35000, 0x30000, 0x30001, 0x40000, 0x2005000)),
        (32, 2, (0, 1, 65_535)),
    ],
    "cmap": [
        (0, 2, (0, 1, 256)),
        (2, 2, (0, 1, 2, 255, 256, 8191, 8192, 65_535)),
    ],
    "loca": [],
}

# lengths at which a verdict can change; others follow from the table or its facts
LENGTHS = {
    "head": (53, 54, 55, 54 + 256, 54 + 65_536),
    "maxp": (5, 6, 7, 31, 32, 33, 6 + 256, 32 + 256, 6 + 65_536, 32 + 65_536),
    "hhea": (35, 36, 37, 36 + 256, 36 + 65_536),
    "hmtx": (65_535, 65_536, 131_071, 131_072),
    "OS/2": (67, 68, 69, 77, 78, 79, 85, 86, 95, 96, 97, 99, 100, 256, 68 + 256, 68 + 65_536),
    "post": (31, 32, 33, 34, 35, 256),
    "cmap": (3, 4, 5, 11, 12, 13, 256),
    "loca": (),
}

# the formats of a cmap's subtables: where their length stands, how many bytes it has, and the least length
SUBTABLES = {
    0: (2, 2, 262),
    2: (2, 2, 518),
    4: (2, 2, 16),
    6: (2, 2, 10),
    8: (4, 4, 8208),
    10: (4, 4, 20),
    12: (4, 4, 16),
    13: (4, 4, 16),
    14: (2, 4, 10),
}

FLIPPED = 10


def copies(tag, table, facts, random):
    """Pairs of a table and facts, most with one thing changed."""
    for altered in altered_tables(tag, table, facts):
        yield altered, facts
    for altered in altered_facts(tag, table, facts):
        yield table, altered
    if tag == "post":
        yield put(table, 32, 2, 0), facts._replace(glyphs=0)        # both tell of no glyphs
    for length in sorted({0, 1, len(table) - 1, len(table) + 1, *LENGTHS[tag], *told_lengths(tag, facts)}):
        yield resized(table, length), facts
    for _ in range(FLIPPED):
        yield flipped(table, random), facts


def altered_tables(tag, table, facts):
    for offset, width, values in FIELDS[tag]:
        for value in values:
            yield put(table, offset, width, value)
    if tag == "hhea":
        yield from (put(table, 34, 2, glyphs) for glyphs in around(facts.glyphs, 65_535))
    if tag == "post":
        yield from (put(table, 32, 2, glyphs) for glyphs in around(facts.glyphs, 65_535))
        yield put(table, 32, 2, 0)[:34]
    if tag == "cmap":
        yield from altered_cmaps(table)
    if tag == "loca":
        yield from altered_locas(table, facts)


def altered_cmaps(table):
    """The last record's offset altered, and every subtable's format and length."""
    count, = struct.unpack_from(">H", table, 2)
    last = 4 + 8 * count - 4
    length = len(table)
    for offset in (0, 4, *around(length - 10, 0xFFFFFFFF), *around(length, 0xFFFFFFFF), length + 65_535, length + 65_536, 0xFFFFFFFF):
        yield put(table, last, 4, offset)
    yield from moved_subtables(table, last)
    for offset in sorted({struct.unpack_from(">I", table, 8 + 8 * index)[0] for index in range(count)}):
        for kind in (*range(16), 256, 268, 65_535):
            yield put(table, offset, 2, kind)
        for kind, (place, width, least) in SUBTABLES.items():
            rest, limit = len(table) - offset, 256 ** width - 1
            for length in {0, least - 1, least, *around(rest, limit), rest + (1 << 16), rest + (1 << 24), limit}:
                yield put(put(table, offset, 2, kind), offset + place, width, min(length, limit))


def moved_subtables(table, record):
    """The subtable of a record laid where two bytes still tell its place and where they no longer do, and where the bytes lent at a
    time end: of the least length, one byte too long for the table, and of no format."""
    borders = (near for end in range(PIECE, len(table) + 1, PIECE) for near in range(end - 11, end + 3))
    for offset in sorted({*borders, 65_535, 65_536, 65_537, len(table) // 2, len(table) - 11, len(table) - 10}):
        for kind, length in ((6, 10), (6, len(table) - offset + 1), (12, 16), (12, len(table) - offset + 1), (7, 10)):
            place, width, _ = SUBTABLES.get(kind, SUBTABLES[6])
            if 0 <= offset <= len(table) - 10 and length < 256 ** width:
                yield put(put(put(table, record, 4, offset), offset, 2, kind), offset + place, width, length)


def altered_locas(table, facts):
    """Single offsets altered: at the ends, in the middle and where two pieces meet."""
    width, unit = loca_layout(facts)
    limit = 256 ** width - 1
    step = PIECE // width
    meetings = [place + near for place in range(step, facts.glyphs, step) for near in (-1, 0, 1)]
    for index in {0, 1, facts.glyphs // 2, facts.glyphs - 1, facts.glyphs, *meetings}:
        if not 0 <= index <= facts.glyphs:
            continue
        at = width * index
        before = get(table, at - width, width) if index else 0
        after = get(table, at + width, width) if index < facts.glyphs else facts.outlines // unit
        for value in {0, limit, *around(before, limit), *around(after, limit)}:
            yield put(table, at, width, value)


def altered_facts(tag, table, facts):
    if tag in ("hhea", "hmtx", "post", "loca"):
        for glyphs in {0, 1, 32_768, 65_535, *around(facts.glyphs, 65_535)}:
            yield facts._replace(glyphs=glyphs)
    if tag == "hmtx":
        for metrics in {0, 1, 65_535, *around(facts.metrics, 65_535), *around(facts.glyphs, 65_535)}:
            yield facts._replace(metrics=metrics)
    if tag == "loca":
        for loca_format in (0, 1, 2, 256, 65_535):
            yield facts._replace(loca_format=loca_format)
        width, unit = loca_layout(facts)
        last = unit * get(table, width * facts.glyphs, width)
        for outlines in {0, last - 1, last, last + 1, last + 65_535, 0xFFFFFFFF}:
            yield facts._replace(outlines=min(outlines, 0xFFFFFFFF))


def told_lengths(tag, facts):
    """The lengths at which the facts say that a table is just long enough."""
    if tag == "hmtx":
        return around(2 * (facts.metrics + facts.glyphs), 1 << 20)
    if tag == "post":
        return [*around(34 + facts.glyphs, 1 << 20), *around(34 + 2 * facts.glyphs, 1 << 20)]
    if tag == "loca":
        return around((facts.glyphs + 1) * loca_layout(facts)[0], 1 << 20)
    return []


def loca_layout(facts):
    """The bytes of an offset, and what it counts."""
    return (4, 1) if facts.loca_format else (2, 2)


def around(value, limit):
    """The number before, the number itself and the number after, as far as they are 0 to the limit."""
    return [near for near in (value - 1, value, value + 1) if 0 <= near <= limit]


def get(table, offset, width):
    return int.from_bytes(table[offset:offset + width], "big")


def put(table, offset, width, value):
    """The table with a number at an offset; as it was where it has no such place."""
    if offset + width > len(table):
        return table
    return table[:offset] + value.to_bytes(width, "big") + table[offset + width:]


def resized(table, length):
    return table[:max(0, length)].ljust(length, b"\0")


def flipped(table, random):
    """The table with one to three bits turned, half the time near its beginning."""
    bytes_of = bytearray(table)
    for _ in range(random.randint(1, 3)):
        reach = min(64, len(table)) if random.random() < 0.5 else len(table)
        bytes_of[random.randrange(reach)] ^= 1 << random.randrange(8)
    return bytes(bytes_of)
