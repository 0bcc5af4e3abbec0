"""The verdict of a rule on a table, as a host comes to it: run after run, each over the bytes that the run before asked for, all
within one budget. A verdict is 1 for a good table, else the reason that the rule gives, else in words why there is none."""
import struct
from typing import NamedTuple

from . import lending

TABLES = ["head", "maxp", "hhea", "hmtx", "OS/2", "post", "cmap", "loca"]   # by tag, from 1 on
GOOD = 1
ASKS = 0


class Rule(NamedTuple):
    cells: int
    program: bytes


def rules(pack):
    """The rules of a pack by table."""
    count, = struct.unpack_from("<H", pack)
    found = {}
    for index in range(count):
        tag, cells, offset, length = struct.unpack_from("<HHHH", pack, 2 + 8 * index)
        found[TABLES[tag - 1]] = Rule(cells, pack[offset:offset + length])
    return found


def verdict(engine, rule, table, facts):
    left = lending.BUDGET
    told = lending.told(len(table), facts)
    while True:
        start, lent = lending.number(told, "start"), lending.number(told, "lent")
        if lent > left:
            return "the budget is used"
        left -= lent
        ran = engine.run(rule, told + table[start:start + lent], left)
        left -= ran.steps
        if said(ran) != ASKS:
            return said(ran)
        asked = lending.number(ran.told, "next_start")
        if asked > len(table):
            return f"it asks for bytes from {asked} on, and the table has {len(table)}"
        told = lending.told(len(table), facts, asked, lending.number(ran.told, "next_lent"), lending.own(ran.told))


def said(ran):
    """What one run says."""
    if ran.status == "running":
        return "the budget is used"
    if ran.status.startswith("refused"):
        return f"the run is {ran.status.replace('refused', 'refused by')}"
    if ran.status != "halted":
        return f"{ran.status.replace('faulted:', 'fault ')} at {ran.address:04X}"
    if ran.depth != 1:
        return f"it halted with {ran.depth} values on the stack, not one"
    return ran.top
