"""What the prover said of an edit, and whether the first thing that it said is that a fact could not be shown.

Of each edit rt ci prints one line: the edit, what its try came to, and behind `refused, as it must be: ` the beginning of the first thing that the
prover said, CUT characters of its first line. What only waits for another declaration ("was not admitted"), and what only says that a proof names what
the edit took away, rt passes over; where nothing else was said, or where the prover came to a limit of its own, it says so before the colon, and no
such edit counts. What is left must begin in one of these forms, and no other counts. In all of them the statement is well formed and the proof does
not reach it:
  refuted    no answer is given for a fact, such as that what the function ensures holds when it returns, the prover's own search does not show it,
             and the prover knows values at which it is false
  open       the same, and no such values are named: it found none, or the line is cut before it says so
  omega      an inequality or equation of numbers does not follow from what is known; omega names numbers for which it fails
  rw, simp   after all rewriting the two sides of an equation are not the same; or what is known of the code rewrites nothing in the goal
  cc         the known equations do not join the two sides of an equation
  search     nothing that is known gives the statement (grind, which splits cases too, says the same)
  statement  what the proof shows is another statement than the one asked: the two first differ in a value, or so late that only their beginning is
             printed, or the one asked is an equation or an inequality
  cut        the same, and the line ends inside the name of what they first differ in, so that it may be no value
So a name that is not found, a term of another type, an invariant or a measure that no longer fits its loop, an answer that comes to stand at another
goal's place, a limit of the prover, and a text that is not read, are no such facts. Of two statements the line has room for the one that is asked alone: that
the other is one too, and what it has where they differ, this cannot see. That a fact could not be shown does not say that it is false: that the edit is wrong
is for its reader to see. Nor can it see that a goal which is open has only another name under the edit than the one that is answered.
"""
import re
from typing import NamedTuple

CUT = 160
LINE = re.compile(r"rt: must-fail (?P<crate>\w+)/(?P<label>[\w.-]+)\.edit: (?P<said>.*)")
REFUSED = re.compile(r"refused, as it must be(?P<but> \(.*?\))?(?:: (?P<first>.*))?", re.DOTALL)
OPEN = re.compile(r"note: (?:\./)?src/[^:]+:\d+:\d+: it is not proved that (?P<fact>.*)", re.DOTALL)
REFUTED = "; the facts known there allow values at which this goal is false"
ERROR = re.compile(r"(?:\./)?(?P<file>proofs/[^:]+\.antt):\d+:\d+: error: (?:`(?P<declaration>[^`]+)`: )?(?P<said>.*)", re.DOTALL)
# a term in quotes, which may be cut
TERM = r"`(?P<term>[^`]*)(?P<whole>`)?"
NUMBERS = re.compile(r"`(omega)`: (?:the goal does not follow from what it read|the part `[^`]*` of the goal does not follow|a listed rule or a hypothesis proves )")
LEFT = re.compile(r"give a proof of that as the last argument, `(rw|simp)\b")
REWRITTEN = re.compile(r"`(rw|simp)` has no last argument, so what it leaves must be a path whose two ends are equal")
UNREACHED = re.compile(r"`(rw|simp)`: (?:no equation of the list has an instance in the goal|no occurrence of the path's left endpoint in the goal)")
CC = re.compile(r"`cc`: the equations do not join")
SEARCH = re.compile(r"`(?:search|grind)`: no proof of `")
DIFFER = re.compile(rf"(?:computed as far as they go|as printed), the two types (?:differ only|first differ) where one has {TERM}")
LANDS = re.compile(rf"this `[^`]*` lands at index {TERM}")
ARE = re.compile(rf"computed as far as they go, the two types are {TERM}")
PLAIN = re.compile(rf"expected type {TERM}")
LATE = re.compile(r"computed as far as they go, the first \d{4,} bytes of the two types are identical")
TYPE_MAKERS = ("the-type", "whole", "row", "plain")
TYPE_HOMES = ("mir.Syntax.", "denote.Builtin.", "borrow.Table.Referent.")
TYPE_PARTS = (".Mod", ".Denot")
RELATIONS = ("≡", "≤", "<", "≢")
JOINED = ("⊎", "×")


class Refusal(NamedTuple):
    """What was said of an edit, and in which form, None where it is no fact."""
    crate: str
    label: str
    said: str
    form: str


def is_cut(term, whole):
    """Whether the name with which a printed term begins is not all there."""
    return not whole and not re.search(r"[\s)]", term.lstrip("( ")) and not term.lstrip("( ").startswith(TYPE_HOMES)


def is_value(term, whole=True):
    """Whether a printed term is a value: a number, a part of something, a variant, a variable, an operation, or a function's value. Types are
    none of these: their names begin with a capital or stand in TYPE_HOMES, or they are made by TYPE_MAKERS or RELATIONS or end in TYPE_PARTS. A
    term that is not whole is judged by how it begins."""
    bare = term.strip().strip("()").strip()
    words = re.split(r"[\s()]+", bare)
    head, last = words[0], words[-1]
    name = head.split(".")[-1]
    if whole and last.endswith(TYPE_PARTS) or name in TYPE_MAKERS or name.strip("◌") in (*RELATIONS, *JOINED) or head.startswith(TYPE_HOMES):
        return False
    return bool(re.fullmatch(r"\d+|\.\w\S*", head) or re.search(r"\.(?:the-variants|TheVariants)\.", head) or re.search(r"\.declared\.(\w+)\.\1\.\w+$", head)
                or re.match(r"[a-zα-ω◌\[]", name))


def is_head(term):
    """Whether a printed term is what an equation or an inequality begins with."""
    return term.split(".")[-1].strip("◌") in ("Path", *RELATIONS)


def parts(term):
    """A printed term as its words and bracketed parts; a bracket that is not closed ends with the term."""
    found, depth, begin = [], 0, 0
    for at, sign in enumerate(term + " "):
        depth += {"(": 1, ")": -1}.get(sign, 0)
        if sign == " " and (depth == 0 or at == len(term)):
            found += [term[begin:at]] if term[begin:at] else []
            begin = at + 1
    return found


def is_relation(term):
    """Whether a printed type, or as much of it as is there, states an equation, an inequality, or two such statements of which one holds or both do."""
    words = parts(term.strip())
    if len(words) == 1 and words[0].startswith("("):
        return is_relation(words[0][1:-1] if words[0].endswith(")") else words[0][1:])
    head = words[0].split(".")[-1].strip("◌") if words else ""
    if head == "Path" or head in RELATIONS:
        return len(words) > 1
    if head in JOINED and len(words) > 1:
        return is_relation(words[1])
    joined = next((at for at, word in enumerate(words) if word in JOINED), None)
    return is_relation(" ".join(words[:joined])) if joined else any(word in RELATIONS for word in words)


def form_of(first):
    """The form in which the first thing that was said says that a fact could not be shown, or None."""
    found = OPEN.fullmatch(first)
    if found:
        if found["fact"].startswith("the loop ends: "):
            return None
        rest = found["fact"].partition("`)")[2]
        return "refuted" if rest and (rest.startswith(REFUTED) or len(first) >= CUT and REFUTED.startswith(rest) and len(rest) > len("; the f")) else "open"
    found = ERROR.fullmatch(first)
    if not found or found["file"].endswith("/Invariants.antt"):
        return None
    said = found["said"]
    for pattern in (NUMBERS, LEFT, REWRITTEN, UNREACHED):
        if pattern.match(said):
            return pattern.match(said).group(1)
    if CC.match(said):
        return "cc"
    if SEARCH.match(said):
        return "search"
    if LATE.match(said):
        return "statement"
    for pattern in (DIFFER, LANDS):
        differ = pattern.match(said)
        if differ and is_cut(differ["term"], differ["whole"]):
            return "cut" if len(first) >= CUT else None
        if differ and is_head(differ["term"]) and said[differ.end():].startswith(" (expected), at the start"):
            return "statement"
        if differ:
            return "statement" if is_value(differ["term"], bool(differ["whole"])) else None
    for pattern in (ARE, PLAIN):
        asked = pattern.match(said)
        if asked:
            return "statement" if is_relation(asked["term"]) else None
    return None


def refusals(log):
    """What a log of rt ci, or of rt must-fail, says of each edit."""
    for line in log.split("\n"):
        found = LINE.fullmatch(line.rstrip("\r"))
        if found:
            refused = REFUSED.fullmatch(found["said"])
            counts = refused and not refused["but"] and refused["first"]
            yield Refusal(found["crate"], found["label"], found["said"], form_of(refused["first"]) if counts else None)
