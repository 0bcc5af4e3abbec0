"""The commands of a console block, and whether what they print is what stands behind them."""
import difflib
import re
from typing import NamedTuple

from .blocks import Fault

PROMPT = "$ "
ANY = ".."
STATUS = re.compile(r"\(exit status ([0-9]+)\)")
OF_THE_SHELL = re.compile(r"(?:cd|pushd|popd|export|set|unset|alias|source|\.)(?:\s|$)|[A-Za-z_]\w*=\S*$")


class Command(NamedTuple):
    line: int
    text: str
    printed: list                       # the lines that it must print, .. for any
    status: int


def commands(block):
    """The commands of a block, each with what must come of it."""
    found = []
    for number, line in enumerate(block.lines, block.line + 1):
        if line.startswith(PROMPT):
            found.append((number, [line[len(PROMPT):]], []))
        elif found and found[-1][1][-1].endswith("\\") and not found[-1][2]:
            found[-1][1].append(line)
        elif found:
            found[-1][2].append(line)
        else:
            raise Fault(number, f"a console block begins with a command, behind {PROMPT.strip()}")
    if not found:
        raise Fault(block.line, "the block has no command")
    return [command(*one) for one in found]


def command(number, texts, printed):
    text, printed = "\n".join(texts), without_empty_end(printed)
    if text.endswith("\\"):
        raise Fault(number, "the command does not end")
    if OF_THE_SHELL.match(text):
        raise Fault(number, f"{text}: each command has a shell of its own, in which this does not last")
    status = STATUS.fullmatch(printed[-1]) if printed else None
    return Command(number, text, without_empty_end(printed[:-1]) if status else printed, int(status[1]) if status else 0)


def without_empty_end(lines):
    count = len(lines)
    while count and not lines[count - 1].strip():
        count -= 1
    return lines[:count]


def alike(stated, printed):
    """Whether the lines printed are those that stand there, where .. stands for any number of lines."""
    first, *rest = split(stated)
    if not rest:
        return printed == first
    *middle, last = rest
    if printed[:len(first)] != first or len(printed) < len(first) + len(last) or printed[len(printed) - len(last):] != last:
        return False
    at, end = len(first), len(printed) - len(last)
    for part in middle:
        while at + len(part) <= end and printed[at:at + len(part)] != part:
            at += 1
        if at + len(part) > end:
            return False
        at += len(part)
    return True


def split(lines):
    """The lines between the .. in turn."""
    parts = [[]]
    for line in lines:
        if line == ANY:
            parts.append([])
        else:
            parts[-1].append(line)
    return parts


def difference(stated, printed):
    return list(difflib.unified_diff(stated, printed, "what stands there", "what is printed", lineterm=""))
