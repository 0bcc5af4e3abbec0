"""A program from its source: every instruction is placed at its address, and then, with all labels known, spelled."""
from typing import NamedTuple

from .instructions import FORMS, OPERAND_MAX, expected, nearest, wider
from .reading import NAME, Constant, Instruction, Label, Line, pieces, shown, told
from .values import DECIMAL, HEX, Names
from .wrong import Cause

PROGRAM_MAX = 16_384
WORDS = [*FORMS, "include"]


class Placed(NamedTuple):
    """An instruction, and the bytes that each of its operands takes."""
    line: Line
    name: str
    operands: list
    widths: list


def assembled(file):
    """The program that a source gives. The file - is standard input."""
    return Program(file).spelled()


class Program:
    def __init__(self, file):
        self.names, self.placed = Names(), []
        self.address = 0
        for piece in pieces(file):
            with told(piece.line):
                self.take(piece)

    def take(self, piece):
        if isinstance(piece, Label):
            self.names.define(piece, self.address, True)
        elif isinstance(piece, Constant):
            self.names.define(piece, self.names.value(piece.value, "defined above"), False)
        elif isinstance(piece, Instruction):
            self.place(piece)

    def place(self, piece):
        if piece.address not in (None, self.address):
            raise Cause(f"the address here is {self.address:04X}")
        if piece.name not in FORMS:
            raise Cause(f"no such instruction{nearest(piece.name, WORDS) or unlike(piece.name)}")
        form, count = FORMS[piece.name], len(piece.operands)
        if count < form.least or (form.most is not None and count > form.most):
            raise Cause(f"{expected(piece.name)}, and {'none is' if not count else f'{count} are' if count > 1 else 'one is'} here")
        widths = [self.width(piece.name, operand) for operand in piece.operands]
        self.placed.append(Placed(piece.line, piece.name, piece.operands, widths))
        self.address += sum(widths, 0 if form.code is None else 1)
        if self.address > PROGRAM_MAX:
            raise Cause(f"with this the program is over {PROGRAM_MAX:,} bytes, and none may be")

    def width(self, name, operand):
        """The bytes that an operand takes. Of push-values: as its two or four digits say, or else two where one may not be enough."""
        if name != "push-values":
            return FORMS[name].width
        if HEX.fullmatch(operand):
            if len(operand) not in (3, 5):
                raise Cause(f"{shown(operand)}: in push-values the hex digits say how wide a value is: two for one byte, four for two")
            return len(operand) // 2
        return 1 if self.names.settled(operand) and self.names.value(operand) <= 255 else 2

    def spelled(self):
        return b"".join(self.bytes_of(one) for one in self.placed)

    def bytes_of(self, one):
        with told(one.line):
            values = [self.fitting(one.name, operand, width) for operand, width in zip(one.operands, one.widths)]
        if one.name == "push-u8":
            return bytes([FORMS[one.name].code | values[0]])
        return first_byte(one) + b"".join(value.to_bytes(width, "little") for value, width in zip(values, one.widths))

    def fitting(self, name, operand, width):
        """The value of an operand, which its place must have room for."""
        value = self.names.value(operand)
        limit = FORMS[name].limit if name != "push-values" else 256 ** width
        if 0 <= value < limit:
            return value
        what = operand if DECIMAL.fullmatch(operand) else f"{operand}, which is {value},"
        raise Cause(f"{shown(what)} does not fit: {name} takes 0 to {limit - 1}{advice(name, value)}")


def unlike(name):
    """What a word may be that is like no instruction."""
    if name.startswith((";", "//")):
        return ": a comment begins with #"
    return f": a label is written {name}:" if NAME.fullmatch(name) else ""


def first_byte(one):
    code = FORMS[one.name].code
    if one.name == "push-values":
        code |= sum(4 << place for place, width in enumerate(one.widths) if width == 2) | len(one.widths) - 1
    return b"" if code is None else bytes([code])


def advice(name, value):
    """How a value that does not fit can be written, if it can."""
    if -32_768 <= value < 0:
        return f", and {value} in 16 bits is ${value % 65_536:04X}"
    if 0 <= value <= OPERAND_MAX and wider(name):
        return f", {wider(name)} up to {OPERAND_MAX}"
    return ""
