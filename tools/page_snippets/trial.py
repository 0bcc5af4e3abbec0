"""A page tried: every snippet is run, or held to the file that it is taken from, in a scratch folder that has links to the repository's."""
import os
import pathlib
import platform
import signal
import subprocess
import tempfile
from typing import NamedTuple

from . import console, elsewhere, excerpts
from .blocks import Fault, Fenced, snippets

LINKS = ["examples", "tools", "docs", "include", "target", "host"]
PICTURED = "README.md"
SECONDS_MAX = 300


class Tried(NamedTuple):
    snippets: int
    commands: int
    wrong: list                         # faults


def tried(top, page, seconds=SECONDS_MAX):
    """What comes of a page of the repository at top, where each command is done in so many seconds."""
    with tempfile.TemporaryDirectory(prefix="snippets.") as folder:
        trial = Trial(top, page, pathlib.Path(folder), seconds)
        trial.over((top / page).read_text(encoding="utf-8"))
        return Tried(trial.snippets, trial.commands, trial.wrong)


def commands(top, text, processor=platform.machine()):
    """The folders in which a command is looked for first: that of khx, and for the compiler, where the library is not for this processor,
    that of one whose programs start under the emulator."""
    emulated = [pathlib.Path(__file__).parent / "emulated"] if processor != "x86_64" and text.startswith("cc ") else []
    return [*emulated, top / "host" / "target" / "release"]


class Trial:
    def __init__(self, top, page, scratch, seconds):
        self.top, self.page, self.scratch, self.seconds = top, page, scratch, seconds
        self.snippets, self.commands, self.wrong = 0, 0, []
        self.pictures = 0
        for name in LINKS:
            if (top / name).exists():
                (scratch / name).symlink_to(top / name)

    def over(self, text):
        try:
            found = snippets(text)
        except Fault as fault:
            self.wrong.append(fault)
            return
        for snippet in found:
            self.snippets += 1
            try:
                self.fenced(snippet) if isinstance(snippet, Fenced) else self.indented(snippet)
            except Fault as fault:
                self.wrong.append(fault)

    def fenced(self, block):
        kinds = {("console", 1): self.console, ("file", 2): self.file, ("picture", 1): self.picture,
                 **{(language, 2): self.excerpt for language in ("c", "rust", "text")}}
        kind = kinds.get((block.info[0], len(block.info))) if block.info else None
        if not kind:
            said = f"{' '.join(block.info)} is no kind of block" if block.info else "the block does not say what it is"
            raise Fault(block.line, f"{said}: console, file NAME, c PATH, rust PATH or text PATH")
        if not any(line.strip() for line in block.lines):
            raise Fault(block.line, "the block is empty")
        kind(block)

    def picture(self, block):
        self.pictures += 1
        if self.page != PICTURED or self.pictures > 1:
            raise Fault(block.line, f"a picture is not run: only {PICTURED} has one, and only one")

    def file(self, block):
        name, text = block.info[1], "".join(f"{line}\n" for line in block.lines)
        if not excerpts.plain(name):
            raise Fault(block.line, f"{name}: a file stands below the folder of the page's commands")
        own, there = self.scratch / name, self.top / name
        if there.exists() and (not there.is_file() or there.read_text(encoding="utf-8") != text):
            raise Fault(block.line, f"the block is not what {name} is in the repository")
        if there.exists() and own.exists():
            return
        if pathlib.PurePosixPath(name).parts[0] in LINKS:
            raise Fault(block.line, f"{name}: the repository has no such file, and none is written there")
        own.parent.mkdir(parents=True, exist_ok=True)
        own.write_text(text, encoding="utf-8")

    def excerpt(self, block):
        name = block.info[1]
        if not excerpts.compiled(name):
            raise Fault(block.line, f"{name} is no file that the gate compiles, in examples/c, examples/rust or host")
        if not (self.top / name).is_file():
            raise Fault(block.line, f"{name} is not there")
        if not excerpts.has((self.top / name).read_text(encoding="utf-8"), block.lines):
            raise Fault(block.line, f"the block does not stand in {name}, line by line")

    def console(self, block):
        for command in console.commands(block):
            self.commands += 1
            status, printed = self.run(command, self.scratch)
            cause = []
            if not console.alike(command.printed, printed):
                cause += ["what it prints is not what stands there", *console.difference(command.printed, printed)]
            if status != command.status:
                cause += [f"exit status {status}, and {command.status} is expected"]
            if cause:
                self.wrong.append(Fault(command.line, f"{command.text}: " + "\n".join(cause)))

    def indented(self, snippet):
        command = elsewhere.command_of(snippet.text)
        known = elsewhere.known(command)
        if not known:
            raise Fault(snippet.line, f"{command}: it is not known where this is run: put it into a console block, or into the table of elsewhere.py")
        for file, line in elsewhere.missing(self.top, known):
            raise Fault(snippet.line, f"{command}: not run here, since {known.why}; but {file} has no line {line}")
        if elsewhere.instead(known, command):
            self.commands += 1
            status, printed = self.run(console.Command(snippet.line, elsewhere.instead(known, command), [], 0), self.top)
            if status != 0:
                raise Fault(snippet.line, "\n".join([f"{command}: exit status {status}", *printed]))

    def run(self, command, folder):
        """The exit status of a command and the lines that it prints."""
        surroundings = {**os.environ, "PATH": ":".join([*map(str, commands(self.top, command.text)), os.environ["PATH"]]), "LC_ALL": "C.UTF-8"}
        ran = subprocess.Popen(["bash", "-c", command.text], cwd=folder, env=surroundings, start_new_session=True,
                               stdin=subprocess.DEVNULL, stdout=subprocess.PIPE, stderr=subprocess.STDOUT)
        try:
            printed, _ = ran.communicate(timeout=self.seconds)
        except subprocess.TimeoutExpired:
            raise Fault(command.line, f"{command.text}: not done after {self.seconds} seconds") from None
        finally:
            if ran.poll() is None:
                os.killpg(ran.pid, signal.SIGKILL)
                ran.communicate()
        return ran.returncode, console.without_empty_end(printed.decode("utf-8", "backslashreplace").split("\n"))
