"""Data memories that no host laid out as examples/README.md says: a table's bytes alone, as a host lends them that does not know how,
and random bytes. Every rule must refuse every one of them: a table must not be called good because it was not lent as the rule thinks."""
from .lending import MARK

MOST = 65_535           # the most bytes of a data memory
RANDOM = 2_000
SHORT = 400             # most random memories are shorter


def raw(table):
    """The bytes of a table alone, as far as they fit a data memory."""
    return bytes(table[:MOST])


def memories(random):
    """Memories of random bytes: some end inside the 64 bytes that a host writes, some begin with all of the mark but one bit."""
    for index in range(RANDOM):
        memory = random.randbytes(random.randrange(MOST + 1) if index % 16 == 0 else random.randrange(SHORT))
        if index % 4 == 1:
            at, bit = random.randrange(len(MARK)), random.randrange(8)
            almost = bytes(byte ^ (1 << bit if place == at else 0) for place, byte in enumerate(MARK))
            memory = (almost + memory)[:MOST]
        yield memory
    yield b""
