"""The must-fail edits: what each alters."""
import re
from typing import NamedTuple

from sources import crates, rattle


class Bad(Exception):
    """An edit that is not of the form that it should have."""


class Edit(NamedTuple):
    crate: str
    label: str
    pairs: tuple

    @property
    def name(self):
        return f"{self.crate}/{self.label}"


def read(crate, file):
    """An edit: a `file:` line holds for the `old:` and `new:` pairs after it."""
    pairs, name, old = [], None, None
    for line in file.read_text(encoding="utf-8").split("\n"):
        word, _, rest = line.partition(":")
        if word == "file":
            name = rest.strip()
        elif word == "old":
            old = rest[1:]
        elif word == "new":
            pairs.append((name, old, rest[1:]))
    return Edit(crate, file.stem, tuple(pairs))


def edits(top=crates.TOP):
    return [read(folder.name, file) for folder in crates.folders(top) for file in sorted(folder.glob("must-fail/*.edit"))]


def shown(items):
    """What of a source's items is no body: signatures, clauses, types, the names and types of constants."""
    return [(*one[:6], one.attributes, one.text.partition("=")[0] if one.kind == "const" else one.text, one.clauses, shown(one.items or ())) for one in items]


def has_functions(folder):
    return any(item.kind in ("fn", "impl", "trait impl") for file in folder.glob("src/**/*.rt") for item in rattle.items(file.read_text(encoding="utf-8"), str(file)))


def check(edit, top=crates.TOP):
    """Raises Bad unless the edit is a wrong body or, in a crate without functions, a wrong definition."""
    folder = top / "crates" / edit.crate
    if not edit.pairs:
        raise Bad("it has no `old:` and `new:` pair")
    bodies = has_functions(folder)
    texts = {}
    for file, old, new in edit.pairs:
        if not bodies and not file.startswith("specs/"):
            raise Bad("its crate has no functions, and it alters no definition in specs/")
        if bodies and not file.startswith("src/"):
            raise Bad(f"it alters {file}, and no body in src/")
        text = texts.setdefault(file, (folder / file).read_text(encoding="utf-8"))
        if text.count(old) != 1:
            raise Bad(f"its `old:` stands {text.count(old)} times in {file}")
        texts[file] = text.replace(old, new)
    for file, text in texts.items():
        before = (folder / file).read_text(encoding="utf-8")
        if not bodies:
            if re.sub(r"--.*", "", before).split() == re.sub(r"--.*", "", text).split():
                raise Bad(f"it alters nothing but blanks and comments in {file}")
            continue
        if shown(rattle.items(before, file)) != shown(rattle.items(text, f"{edit.name}, {file}")):
            raise Bad(f"it alters a signature, a clause or a type in {file}, and not a body alone")
        if rattle.code(before) == rattle.code(text):
            raise Bad(f"it alters nothing but blanks and comments in {file}")
