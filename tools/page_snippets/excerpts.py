"""Snippets that are taken from a file: a part of a source that the gate compiles, or a whole file."""
import pathlib
import re

COMPILED = re.compile(r"examples/c/[^/]+\.c|examples/rust/[^/]+\.rs|host/(?!target/).+")


def compiled(name):
    """Whether the file of this name is among what the gate compiles and runs."""
    return plain(name) and bool(COMPILED.fullmatch(name))


def plain(name):
    """Whether a name leads to one place below the folder that it is looked for from."""
    path = pathlib.PurePosixPath(name)
    return str(path) == name and not path.is_absolute() and ".." not in path.parts


def has(text, lines):
    """Whether a text has these lines, one behind the other, but for blanks that all of them begin with."""
    whole, sought = text.split("\n"), dedented(lines)
    return any(dedented(whole[at:at + len(sought)]) == sought for at in range(len(whole) - len(sought) + 1))


def dedented(lines):
    indents = [len(line) - len(line.lstrip(" ")) for line in lines if line.strip()]
    common = min(indents, default=0)
    return [line[common:] if line.strip() else "" for line in lines]
