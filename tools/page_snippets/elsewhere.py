"""The commands of indented blocks: why each is not run as it stands, and where the gate has what it does."""
import re
from typing import NamedTuple, Optional

LIBRARY = "target/staticlib/libkhalixoshi.a"


class Known(NamedTuple):
    """A command that may stand on a page."""
    command: str                        # as a pattern
    why: str                            # it is not run as it stands
    steps: list                         # pairs of a file and a line that it has, as a pattern
    instead: Optional[str] = None       # what is run, with the parts of the command in their places


KNOWN = [
    Known(r"make test", "it is the gate itself", [("Makefile", r"test:"), ("Makefile", r"\t@\.ci/run")]),
    Known(r"make run", "it is a step of the gate", [(".ci/run", r"\s*make --silent run\b.*")]),
    Known(r"make host", "it is a step of the gate", [(".ci/run", r"outside .* make --silent host")]),
    Known(r"make c-example", "it is a step of the gate", [(".ci/run", r"outside .* make --silent c-example")]),
    Known(r"make soak N=[0-9]+ SEED=([0-9]+)", "it takes hours: fewer cases are asked", [("Makefile", r"soak: host")],
          rf"make --silent -o {LIBRARY} soak N=1000 SEED=\1"),
    Known(r"make fuzz SECONDS=[0-9]+", "it takes so long: the gate replays the seeds",
          [("Makefile", r"\t@tools/fuzz \$\(SECONDS\)"), (".ci/run", r"outside .* tools/fuzz")]),
    Known(r"tools/x86-64 COMMAND", "it is for other processors alone", [("tools/x86-64", r"# usage: x86-64 COMMAND.*")]),
]


def command_of(text):
    """The command of a line, without its comment."""
    return " ".join(re.split(r"(?:^|\s)#", text)[0].split())


def known(command):
    return next((one for one in KNOWN if re.fullmatch(one.command, command)), None)


def missing(top, one):
    """The steps that are not where the table says, each as a file and a line."""
    for file, line in one.steps:
        path = top / file
        if not path.is_file() or not any(re.fullmatch(line, has) for has in path.read_text(encoding="utf-8").split("\n")):
            yield file, line


def instead(one, command):
    """What is run in its place, if anything."""
    return one.instead and re.sub(one.command, one.instead, command)
