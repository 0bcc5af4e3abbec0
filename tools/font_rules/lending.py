"""A table as the data memories that a rule is run on: examples/README.md says how. The numbers are those that
examples/rules/preamble.txt gives the rules."""
import pathlib
import struct

import assembly

PREAMBLE = pathlib.Path(__file__).resolve().parent.parent.parent / "examples" / "rules" / "preamble.txt"
MARK = b"KHX1"
OWN_BYTES = 32
FOUR_BYTES = ("length", "start", "outlines", "next_start")      # all other numbers have two

AT = assembly.names(PREAMBLE)
PIECE = AT["piece"]             # the most bytes of a table that are lent at a time
BUDGET = AT["budget"]           # for a table, all runs together: each byte lent counts one, and each step
UNMARKED = AT["unmarked"]       # the reason of a rule whose data does not begin with the mark
TOLD = AT["table"]              # the bytes that the host writes before those of the table


def told(length, facts, start=0, wanted=PIECE, own=bytes(OWN_BYTES)):
    """What the host writes where it lends a table of this length from a start on, as far as is wanted."""
    memory = bytearray(TOLD)
    memory[AT["mark"]:AT["mark"] + len(MARK)] = MARK
    numbers = {"length": length, "start": start, "lent": min(wanted, PIECE, length - start), **facts._asdict()}
    for name, value in numbers.items():
        struct.pack_into(layout(name), memory, AT[name], value)
    memory[AT["own"]:AT["own"] + OWN_BYTES] = own
    return bytes(memory)


def number(memory, name):
    """A number in what the host wrote, or the rule."""
    return struct.unpack_from(layout(name), memory, AT[name])[0]


def own(memory):
    """The bytes that a rule keeps from run to run."""
    return memory[AT["own"]:AT["own"] + OWN_BYTES]


def layout(name):
    return "<I" if name in FOUR_BYTES else "<H"
