"""An engine that answers the conformance protocol (docs/CONFORMANCE.md), asked one case after the other: which bytes a rule is lent
next follows from its last answer. So the engine must answer a line before it waits for another."""
import contextlib
import subprocess
from typing import NamedTuple

from . import lending


class Ran(NamedTuple):
    """What came of a run."""
    steps: int
    depth: int
    status: str         # running, halted or faulted:N; refused N where it did not begin
    address: int
    top: int            # the value on top of the stack, where there is one
    told: bytes         # what is in the bytes that the host wrote


class Engine:
    def __init__(self, command):
        try:
            self.process = subprocess.Popen(command, stdin=subprocess.PIPE, stdout=subprocess.PIPE)
        except OSError as error:
            raise ValueError(f"the engine does not start: {command[0]}: {error.strerror}") from error

    def __enter__(self):
        return self

    def __exit__(self, *_):
        with contextlib.suppress(BrokenPipeError):      # what was not sent to an engine that ended
            self.process.stdin.close()
        self.process.stdout.close()
        self.process.wait()

    def answer(self, case):
        """The answer to a case: one line for one line. An engine may end before it is sent the case, or before it answers it."""
        with contextlib.suppress(BrokenPipeError):
            self.process.stdin.write(case + b"\n")
            self.process.stdin.flush()
        answer = self.process.stdout.readline()
        if not answer.endswith(b"\n"):
            raise ValueError(f"the engine ended with exit status {self.process.wait()}")
        return answer[:-1]

    def refused(self, pack):
        """The lines of the pack's report that tell of a refusal."""
        report = self.answer(b"report " + pack.hex().encode()).decode()
        if "|" not in report:
            raise ValueError(f"no answer to a report: {report[:40]}")
        return [line for line in report.strip("|").split("|") if not line.endswith(" accepted")]

    def run(self, rule, data, budget):
        """Runs a rule on a data memory from the fresh state."""
        hexed = data.hex().encode() or b"-"
        case = b"run %b %b %b 0 0 running %d" % (rule.program.hex().encode(), hexed, b"0000" * rule.cells, budget)
        return ran(self.answer(case))


def ran(answer):
    """The answer to a run, as far as it is needed."""
    word, count, address, depth, status, rest = answer.split(b" ", 5)
    memory, _, cells = rest.rpartition(b" ")
    if word not in (b"ok", b"refused"):
        raise ValueError(f"no answer to a run: {answer[:40].decode()}")
    depth = int(depth)
    live = len(cells) - 4 * depth
    return Ran(
        steps=int(count) if word == b"ok" else 0,
        depth=depth,
        status=status.decode() if word == b"ok" else f"refused {count.decode()}",
        address=int(address),
        top=int(cells[live:live + 4], 16) if depth else 0,
        told=bytes.fromhex(memory[:2 * lending.TOLD].decode()) if memory != b"-" else b"",
    )
