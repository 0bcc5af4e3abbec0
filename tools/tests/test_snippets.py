"""Tests of tools/snippets over small pages: what is right passes, and each kind of wrong snippet is noticed at its line."""
import pathlib
import shutil
import subprocess
import tempfile
import textwrap
import unittest

import page_snippets
from page_snippets import console

TOOLS = pathlib.Path(__file__).resolve().parent.parent
FENCE = "```"
SOURCE = """\
#include <stdio.h>

int main(void) {
    if (1) {
        puts("x");

        return 0;
    }
}
"""
GATE = """\
main_job() {
    make --silent run >said
}
outside "the command" make --silent host
outside "the C face with any bytes" tools/fuzz
"""
MAKEFILE = """\
N = 5
SEED = 2
test:
\t@.ci/run
host:
soak: host
\t@echo $(SEED) $(N) >soaked
fuzz:
\t@tools/fuzz $(SECONDS)
"""


def block(info, text):
    return f"{FENCE}{info}\n{textwrap.dedent(text)}{FENCE}\n"


class Pages(unittest.TestCase):
    def setUp(self):
        folder = tempfile.TemporaryDirectory()
        self.addCleanup(folder.cleanup)
        self.top = pathlib.Path(folder.name)
        for name, text in {"examples/c/x.c": SOURCE, "examples/a.txt": "a\nb\n", "host/x/src/lib.rs": "fn x() {}\n", "host/target/made.rs": "fn x() {}\n",
                           "include/x.h": "int x;\n", ".ci/run": GATE, "Makefile": MAKEFILE, "tools/x86-64": "# usage: x86-64 COMMAND..: it\n"}.items():
            self.write(name, text)

    def write(self, name, text):
        (self.top / name).parent.mkdir(parents=True, exist_ok=True)
        (self.top / name).write_text(text, encoding="utf-8")

    def tried(self, text, page="README.md", **more):
        self.write(page, text)
        return page_snippets.tried(self.top, page, **more)

    def passes(self, text, snippets, commands, page="README.md"):
        tried = self.tried(text, page)
        self.assertEqual([(fault.line, str(fault)) for fault in tried.wrong], [])
        self.assertEqual((tried.snippets, tried.commands), (snippets, commands))

    def fails(self, text, line, cause, page="README.md", **more):
        """The page has one fault, at that line, in whose words is the cause."""
        faults = self.tried(text, page, **more).wrong
        self.assertEqual([fault.line for fault in faults], [line])
        self.assertIn(cause, str(faults[0]))


class Consoles(Pages):
    def test_what_is_printed(self):
        self.passes(block("console", """\
            $ echo a; echo b >&2
            a
            b

            $ true
            $ printf '%s\\n' \\
                c d
            c
            d
            $ exit 3
            (exit status 3)
            $ printf 'x\\n\\ny'; exit 1
            x

            y
            (exit status 1)
            """), 1, 5)

    def test_another_output(self):
        page = "text\n\n" + block("console", "$ true\n\n$ echo b\na\n")
        self.fails(page, 6, "echo b: what it prints is not what stands there\n--- what stands there\n+++ what is printed\n@@ -1 +1 @@\n-a\n+b")
        self.fails(block("console", "$ printf 'a\\nb\\n'\na\n"), 2, "+b")
        self.fails(block("console", "$ echo a\na\nb\n"), 2, "-b")
        self.fails(block("console", "$ echo a\n"), 2, "+a")
        self.fails(block("console", "$ echo 'a '\na\n"), 2, "+a ")

    def test_another_status(self):
        self.fails(block("console", "$ echo a; exit 2\na\n"), 2, "exit status 2, and 0 is expected")
        self.fails(block("console", "$ exit 2\n(exit status 1)\n"), 2, "exit status 2, and 1 is expected")
        self.fails(block("console", "$ true\n(exit status 1)\n"), 2, "exit status 0, and 1 is expected")
        self.fails(block("console", "$ no-such-command\n..\n"), 2, "exit status 127")

    def test_each_fault_is_told(self):
        self.assertEqual([fault.line for fault in self.tried(block("console", "$ false\n$ true\n$ false\n")).wrong], [2, 4])

    def test_files_stay_for_later_blocks_of_the_page(self):
        page = block("console", "$ echo a >made\n") + block("console", "$ cat made\na\n")
        self.passes(page, 2, 2)
        self.fails(block("console", "$ cat made\na\n"), 2, "No such file")
        self.assertFalse((self.top / "made").exists())

    def test_the_repository_is_there(self):
        self.passes(block("console", "$ cat examples/a.txt\na\nb\n$ ls host/x\nsrc\n"), 1, 2, "docs/GUIDE.md")

    def test_the_commands_built_come_first(self):
        self.write("host/target/release/cat", "echo the one built\n")
        (self.top / "host/target/release/cat").chmod(0o755)
        self.passes(block("console", "$ cat x\nthe one built\n"), 1, 1)

    def test_no_command(self):
        self.fails(block("console", "text\n$ true\n"), 2, "begins with a command")
        self.fails(block("console", "$ true \\\n"), 2, "does not end")
        self.fails(block("console", "\n"), 1, "empty")

    def test_what_does_not_last(self):
        for text in ("cd examples", "export A=1", "A=1", "set -e"):
            self.fails(block("console", f"$ {text}\n"), 2, "does not last")
        self.passes(block("console", "$ A=1 bash -c 'echo $A'\n1\n"), 1, 1)

    def test_too_long(self):
        self.fails(block("console", "$ sleep 100\n"), 2, "sleep 100: not done after 0.2 seconds", seconds=0.2)

    def test_any_lines(self):
        for stated, printed in (("..", ""), ("..", "a b"), ("a ..", "a"), ("a .. b", "a b"), ("a .. b", "a x b x b"),
                                (".. b", "b"), (".. x .. y ..", "a x b y"), ("a .. .. b", "a b")):
            self.assertTrue(console.alike(stated.split(), printed.split()), (stated, printed))
        for stated, printed in (("a ..", "b a"), (".. a", "a b"), ("a .. a", "a"), (".. x .. y ..", "y x"),
                                ("a .. x .. b", "a b x"), ("", "a"), ("a", ""), ("...", "a")):
            self.assertFalse(console.alike(stated.split(), printed.split()), (stated, printed))


class Files(Pages):
    def test_a_file_for_later_commands(self):
        self.passes(block("file new/a.txt", "x\n\n  y\n") + block("console", "$ cat new/a.txt\nx\n\n  y\n"), 2, 1)
        self.assertFalse((self.top / "new").exists())

    def test_a_file_of_the_repository(self):
        self.passes(block("file examples/a.txt", "a\nb\n"), 1, 0)
        self.passes(block("file Makefile", MAKEFILE) + block("console", "$ head -n 1 Makefile\nN = 5\n"), 2, 1)
        for text in ("a\n", "a\nb\nc\n", "a\nB\n"):
            self.fails(block("file examples/a.txt", text), 1, "not what examples/a.txt is")
        self.fails(block("file examples", "a\n"), 1, "not what examples is")

    def test_nothing_is_written_into_the_repository(self):
        for name in ("examples/new.txt", "../new.txt", "/new.txt", "./a.txt", "new/../examples/new.txt"):
            self.fails(block(f"file {name}", "a\n"), 1, name)
        self.assertFalse((self.top / "examples/new.txt").exists())


class Excerpts(Pages):
    def test_lines_of_a_source(self):
        self.passes(block("c examples/c/x.c", SOURCE), 1, 0)
        self.passes(block("c examples/c/x.c", "puts(\"x\");\n\nreturn 0;\n"), 1, 0)
        self.passes(block("text examples/c/x.c", "if (1) {\n    puts(\"x\");\n"), 1, 0)
        self.passes(block("rust host/x/src/lib.rs", "fn x() {}\n"), 1, 0)

    def test_other_lines(self):
        for text in ("puts(\"y\");\n", "puts(\"x\");\nreturn 0;\n", "if (1) {\nputs(\"x\");\n", "puts(\"x\")\n", SOURCE + "more\n"):
            self.fails(block("c examples/c/x.c", text), 1, "does not stand in examples/c/x.c")

    def test_a_file_that_nothing_compiles(self):
        for name in ("include/x.h", "host/target/made.rs", "examples/a.txt", "host/../include/x.h", "examples/c/x/y.c"):
            self.fails(block(f"c {name}", "int x;\n"), 1, "no file that the gate compiles")
        self.fails(block("c examples/c/gone.c", "int x;\n"), 1, "is not there")


class Blocks(Pages):
    def test_every_block_says_what_it_is(self):
        self.fails("\n" + block("", "x\n"), 2, "does not say what it is")
        for info in ("sh", "c", "rust", "file", "console x", "file a b", "Console"):
            self.fails("\n" + block(info, "x\n"), 2, f"{info} is no kind of block")

    def test_a_block_that_is_not_closed(self):
        self.fails(f"x\n{FENCE}console\n$ true\n", 2, "does not end")
        self.fails(f"{FENCE}console\n$ true\n{FENCE}console\n$ true\n{FENCE}\n", 3, "inside that of line 1")

    def test_other_fences(self):
        self.fails("~~~console\n$ true\n~~~\n", 1, "three backquotes")
        self.fails("````console\n$ true\n````\n", 1, "three backquotes")

    def test_blocks_in_other_forms(self):
        for before in ("> ", "- ", "1. ", "\u00a0"):
            self.fails("x\n\n" + "".join(f"{before}{line}\n" for line in (f"{FENCE}console", "$ false", FENCE)), 3, "nothing but blanks before them")
        for line in ("<pre>", "x <PRE class=y>"):
            self.fails(f"x\n\n{line}\n$ false\n</pre>\n", 3, "nothing but blanks before them")
        self.fails(f"- a\n\n\t{FENCE}console\n\t$ false\n\t{FENCE}\n", 4, "exit status 1")
        self.passes(f"- a\n\n\t{FENCE}console\n\t$ printf '<pre>\\n- %s\\n' '{FENCE}'\n\t<pre>\n\t- {FENCE}\n\t{FENCE}\n", 1, 1)

    def test_a_block_in_a_list(self):
        self.passes("- a\n\n  " + block("console", "$ printf 'a\\n  b\\n'\n  a\n    b\n").replace(FENCE, "  " + FENCE).lstrip().replace("\n$", "\n  $"), 1, 1)

    def test_a_picture(self):
        self.passes(block("picture", "/\\\n"), 1, 0)
        self.fails(2 * block("picture", "/\\\n"), 4, "only one")
        self.fails(block("picture", "/\\\n"), 1, "only README.md has one", "examples/README.md")


class Commands(Pages):
    def test_those_that_are_run_elsewhere(self):
        self.passes("x\n\n    make run    # it\n    make host\n\n    make test\n    make fuzz SECONDS=9\n    tools/x86-64 COMMAND   # x\n", 5, 0)

    def test_an_unknown_one(self):
        for command in ("make all", "make soak", "make fuzz SECONDS=9 X=1", "rm x"):
            self.fails(f"x\n\n    make run\n    {command}   # x\n", 4, f"{command}: it is not known where this is run")
        self.fails("x\n\n\tmake all\n", 3, "make all: it is not known", "docs/GUIDE.md")

    def test_an_indented_block_in_every_place(self):
        for before, line in (("# A\n", 2), ("- a\n\n  ", 3), ("1. a\n\n   ", 3), ("- a\n  - b\n\n    ", 4), ("x\n\n  \t", 3), (block("console", "$ true\n"), 4)):
            self.fails(f"{before}    make all\n", line, "make all: it is not known")

    def test_a_step_that_the_gate_has_no_more(self):
        self.fails("\n    make c-example\n", 2, "but .ci/run has no line")
        self.write(".ci/run", GATE.replace("outside \"the command\"", "# outside \"the command\""))
        self.fails("\n    make host\n", 2, "but .ci/run has no line")

    def test_fewer_cases(self):
        self.passes("\n    make soak N=7000000 SEED=5   # x\n", 1, 1)
        self.assertEqual((self.top / "soaked").read_text(), "5 1000\n")
        self.write("Makefile", MAKEFILE.replace("@echo", "@echo differ; false"))
        self.fails("\n    make soak N=7000000 SEED=5   # x\n", 2, "exit status 2\ndiffer\n")

    def test_what_is_no_command(self):
        self.passes("- a\n\n  ```console\n  $ true\n  ```\n\n    goes on\n", 1, 1)
        self.passes("x\n    goes on\n\n- a\n\n    the item goes on\n  too\n\n    and on\n", 0, 0)
        self.fails("- a\n\nb\n\n    code\n", 5, "code: it is not known")


class Command(Pages):
    def setUp(self):
        super().setUp()
        shutil.copy(TOOLS / "snippets", self.top / "tools")
        shutil.copytree(TOOLS / "page_snippets", self.top / "tools" / "page_snippets")
        self.write("host/target/release/khx", "")
        for page in ("README.md", "docs/GUIDE.md", "examples/README.md"):
            self.write(page, block("console", "$ echo a\na\n"))

    def said(self, *words):
        ran = subprocess.run([self.top / "tools" / "snippets", *words], input="typed\n", capture_output=True, text=True, check=False)
        return ran.returncode, ran.stdout + ran.stderr

    def test_all_pages(self):
        self.assertEqual(self.said(), (0, "3 snippets of 3 pages, 3 commands: what they print is what stands there\n"))

    def test_one_page(self):
        self.write("README.md", block("console", "$ echo a\nb\n"))
        self.assertEqual(self.said("--page", "docs/GUIDE.md"), (0, "1 snippet of 1 page, 1 command: what they print is what stands there\n"))
        status, said = self.said("--page", "README.md")
        self.assertEqual((status, said.split("\n")[0]), (1, "snippets: README.md:2: echo a: what it prints is not what stands there"))

    def test_standard_input_is_empty(self):
        self.write("README.md", block("console", "$ cat\n"))
        self.assertEqual(self.said("--page", "README.md")[0], 0)

    def test_a_fault_in_one_of_them(self):
        self.write("docs/GUIDE.md", block("", "x\n"))
        self.assertEqual(self.said(), (1, "snippets: docs/GUIDE.md:1: the block does not say what it is: console, file NAME, c PATH, rust PATH or text PATH\n"))

    def test_usage(self):
        self.assertEqual(self.said("--foo"), (2, "snippets: usage: snippets [--page PAGE]\n"))
        self.assertEqual(self.said("--page", "x.md"), (2, "snippets: x.md is none of README.md, docs/GUIDE.md, examples/README.md\n"))
        (self.top / "host/target/release/khx").unlink()
        self.assertEqual(self.said(), (2, "snippets: host/target/release/khx is not there: make host builds it\n"))
        self.assertEqual(self.said("--help")[0], 0)


if __name__ == "__main__":
    unittest.main()
