"""The constants of a source."""
from .reading import Constant, Label, pieces, told
from .values import Names, terms


def names(path):
    """The constants `name = VALUE` of a source and its includes, by name. Its instructions are not looked at; a constant that has a label in
    it, whose address they would tell, is left out."""
    found, places = Names(), set()
    for piece in pieces(path):
        if isinstance(piece, Label):
            places.add(piece.name)
        elif isinstance(piece, Constant):
            with told(piece.line):
                if places & {word for _, word in terms(piece.value)}:
                    places.add(piece.name)
                else:
                    found.define(piece, found.value(piece.value, "defined above"), False)
    return {name: one.value for name, one in found.defined.items()}
