"""tools/assumes: a library's line that carries an assumption is told, and a static library without a line; a program's lines and those of tests are not."""
import importlib.machinery
import importlib.util
import pathlib
import unittest

HERE = pathlib.Path(__file__).resolve().parent
PROVED = "logic=proved functions=2{} sum=0 native=nat,char,string logic-built=trusted libraries-built=trusted statements=trusted"


def command(name):
    loader = importlib.machinery.SourceFileLoader(name, str(HERE.parent / name))
    module = importlib.util.module_from_spec(importlib.util.spec_from_loader(name, loader))
    loader.exec_module(module)
    return module


def log(*lines):
    return "\n".join(line for crate, words in lines for line in (f"== {crate}", "fn one::f: proved", PROVED.format(words), "rt: one proved"))


class Assumes(unittest.TestCase):
    def wrong(self, ci, lib):
        return list(command("assumes").wrong(ci, lib, {"low", "face"}, {"face"}))

    def test_right(self):
        lib = log(("face", " target=x86_64-unknown-linux-gnu"))
        self.assertEqual(self.wrong("", lib), [])
        self.assertEqual(self.wrong(log(("low", ""), ("low: its tests", " tests=1 axioms=12"), ("program", " axioms=8 target=x86_64-unknown-linux-gnu")), lib), [])

    def test_wrong(self):
        lib = log(("face", " target=x86_64-unknown-linux-gnu"))
        self.assertEqual(len(self.wrong(log(("low", " axioms=1")), lib)), 1)
        self.assertEqual(len(self.wrong(log(("face", " axioms=1")), lib)), 1)
        self.assertEqual(len(self.wrong("", log(("face", " axioms=1 target=x86_64-unknown-linux-gnu")))), 1)
        self.assertEqual(len(self.wrong("", lib.replace("logic=proved", "logic=not-proved"))), 1)
        self.assertEqual(len(self.wrong(log(("low", ""), ("face", "")), "")), 1)

    def test_below(self):
        """rt lib also prints the lines of the libraries below that it builds."""
        below = log(("face", " axioms=1")).replace("rt: one proved", PROVED.format(" target=x86_64-unknown-linux-gnu"))
        self.assertEqual(len(self.wrong("", below)), 1)


if __name__ == "__main__":
    unittest.main()
