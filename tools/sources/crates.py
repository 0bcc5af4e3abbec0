"""The crates of the repository: what of each another crate, or a host, can name."""
import pathlib
import re
from typing import NamedTuple

from sources import rattle

TOP = pathlib.Path(__file__).resolve().parent.parent.parent
NAMED = ("fn", "struct", "enum", "const", "type")
OUTSIDE = re.compile(r"\bHostRuntime\b|\bstd\s*::\s*(?:\{[^;]*\b)?(?:io|fs|env|net|os|process|rt|thread|time)\b")


class Public(NamedTuple):
    """A public item by the name that others use, `crate::Type::name`. `words` are the antt names that its file brings in, with their
    modules, and `types` the types, with their paths."""
    crate: str
    name: str
    item: rattle.Item
    file: str
    words: dict
    types: dict


class Module(NamedTuple):
    path: tuple
    items: tuple
    file: str
    words: dict
    types: dict


def folders(top=TOP):
    """The crates' folders, by name."""
    return [folder for folder in sorted((top / "crates").iterdir()) if (folder / "src").is_dir()]


def reached(top=TOP):
    """What each crate stands on, by crates.txt, directly or through others."""
    listed = (top / "crates.txt").read_text(encoding="utf-8") if (top / "crates.txt").exists() else ""
    direct = {name: rest.split() for name, rest in re.findall(r"^(\w+)(?: staticlib)?:([^#\n]*)", listed, re.MULTILINE)}
    found = {}

    def below(name):
        if name not in found:
            found[name] = set()
            found[name] = {one for dep in direct.get(name, ()) for one in {dep} | below(dep)}
        return found[name]

    return {name: below(name) for name in direct}


def static(top=TOP):
    """The names of the static libraries, by crates.txt."""
    return set(re.findall(r"^(\w+) staticlib:", (top / "crates.txt").read_text(encoding="utf-8"), re.MULTILINE))


def reads_or_prints(folder):
    """Whether a crate names what only programs use: files, input, output, the environment, the clock, or the handle that `main` gets."""
    return any(OUTSIDE.search(re.sub(r"//.*", "", file.read_text(encoding="utf-8"))) for file in folder.glob("src/**/*.rt"))


def libraries(top=TOP):
    """The libraries that a host can link. One that reads or prints, or stands on one that does, is a part of programs, as they are: what it
    prints is tested, and nothing is promised."""
    stands_on = reached(top)
    of_programs = {folder.name for folder in folders(top) if reads_or_prints(folder)}
    return [folder for folder in folders(top)
            if (folder / "src" / "lib.rt").exists() and not ({folder.name} | stands_on.get(folder.name, set())) & of_programs]


def words_of(items):
    """The antt names that the `ghost use` lines of a file bring in: name to module."""
    names = {}
    for item in items:
        if item.kind != "ghost use":
            continue
        listed = re.fullmatch(r"(\S+)\.\{(.*)\}", item.text)
        if not listed:
            names[item.text] = item.text
            continue
        for name in listed.group(2).split(","):
            before, _, given = name.strip().partition(" as ")
            names[given or before] = f"{listed.group(1)}.{before}" if given else listed.group(1)
    return names


def types_of(items):
    """The names that the `use` lines of a file bring in: name to path."""
    return {name: "::".join(path[:-1] if path[-1] == name else path) for item in items if item.kind == "use" for path, name in imports(item.text)}


def modules(folder):
    """The modules of a library by path, the crate's own first. Every file of src/ is one of them."""
    found = {}
    top = folder.parent.parent

    def read(path, file):
        items = rattle.items(file.read_text(encoding="utf-8"), str(file.relative_to(top)))
        place(path, items, file)

    def place(path, items, file, words={}, types={}):
        words, types = words | words_of(items), types | types_of(items)
        found[path] = Module(path, items, str(file.relative_to(top)), words, types)
        for item in items:
            if item.kind != "mod":
                continue
            inner = path + (item.name,)
            if item.items is not None:
                place(inner, item.items, file, words, types)
                continue
            beside = folder / "src" / pathlib.Path(*inner)
            file_of = next((one for one in (beside.with_suffix(".rt"), beside / "mod.rt") if one.exists()), None)
            if file_of is None:
                raise rattle.Unread(f"{found[path].file}:{item.line}: no file for the module {item.name}")
            read(inner, file_of)

    read((), folder / "src" / "lib.rt")
    lost = {str(file.relative_to(top)) for file in (folder / "src").rglob("*.rt")} - {module.file for module in found.values()}
    if lost:
        raise rattle.Unread(f"{sorted(lost)[0]}: no `mod` leads to it")
    return found


def imports(text):
    """The paths that a `use` names, each with the name that it gives: `a::{b, c as d}` is a::b as b and a::c as d."""
    text = text.strip()
    group = re.fullmatch(r"((?:\w+\s*::\s*)*)\{(.*)\}", text, re.DOTALL)
    if not group:
        path, _, name = text.partition(" as ")
        parts = tuple(part.strip() for part in path.split("::"))
        return [(parts, name.strip() or parts[-1])]
    before = tuple(part.strip() for part in group.group(1).split("::") if part.strip())
    depth, begin, parts = 0, 0, []
    for at, sign in enumerate(group.group(2) + ","):
        depth += {"{": 1, "}": -1}.get(sign, 0)
        if sign == "," and depth == 0:
            parts.append(group.group(2)[begin:at])
            begin = at + 1
    named = [(before + path, name) for part in parts if part.strip() for path, name in imports(part)]
    return [(path[:-1], path[-2]) if path[-1] == "self" and name == "self" else (path, name) for path, name in named]


def public(folder):
    """The public items of a library: what its root shows, the public functions of its public types, and what is exported to C, which is
    seen wherever it stands."""
    crate, tree = folder.name, modules(folder)
    shown, seen = [], set()

    def show(module, item, name):
        if (module.path, item.within, item.name, item.line) not in seen:
            seen.add((module.path, item.within, item.name, item.line))
            shown.append(Public(crate, "::".join((crate,) + name), item, module.file, module.words, module.types))

    def open_up(module, name, within=()):
        if module.path in within:
            return
        for item in module.items:
            if item.public and item.kind in NAMED:
                show(module, item, name + (item.name,))
            elif item.public and item.kind == "mod":
                open_up(tree[module.path + (item.name,)], name + (item.name,), within + (module.path,))
            elif item.public and item.kind == "use":
                for path, given in imports(item.text):
                    lead(module, item, path, name, given, within + (module.path,))

    def lead(module, item, path, name, given, within):
        """What a `pub use` shows: an item or a module of this crate, all of a module, or something of another crate."""
        at, rest = module.path, list(path)
        if rest[0] == "crate":
            at, rest = (), rest[1:]
        elif rest[0] == "self":
            rest = rest[1:]
        while rest and rest[0] == "super":
            at, rest = at[:-1], rest[1:]
        own = len(rest) < len(path) or at + (rest[0],) in tree or any(one.name == rest[0] for one in tree[at].items)
        if not own:
            show(module, item._replace(name=given), name + (given,))
            return
        while rest and at + (rest[0],) in tree:
            at, rest = at + (rest[0],), rest[1:]
        if not rest:
            open_up(tree[at], name + (given,), within)
        elif rest == ["*"]:
            open_up(tree[at], name, within)
        else:
            aimed = [one for one in tree[at].items if one.kind in NAMED and one.name == rest[0]]
            again = [one for one in tree[at].items if one.kind == "use" and any(as_ == rest[0] for _, as_ in imports(one.text))]
            if len(rest) > 1 or not (aimed or again):
                raise rattle.Unread(f"{module.file}:{item.line}: `pub use {item.text}` leads to nothing that is read here")
            for one in aimed:
                show(tree[at], one, name + (given,))
            for one in again if not aimed else ():
                for further, as_ in imports(one.text):
                    if as_ == rest[0]:
                        lead(tree[at], one, further, name, given, within)

    open_up(tree[()], ())
    types = {item.name for module in tree.values() for item in module.items if item.public and item.kind in ("struct", "enum")}
    for module in tree.values():
        for item in module.items:
            if item.kind == "fn" and item.exported:
                show(module, item, module.path + (item.name,))
            if item.kind == "trait impl":
                show(module, item, (item.name,))
            if item.kind == "impl":
                for one in item.items:
                    if one.public and item.name in types or one.exported:
                        show(module, one, (item.name, one.name))
    return shown
