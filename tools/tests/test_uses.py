"""tools/uses: a needless crate, a missing one, a crate without a line, a line without a crate and a wrong kind are told."""
import shutil
import subprocess
import tempfile
import unittest
from pathlib import Path

TOOLS = Path(__file__).resolve().parent.parent


class Uses(unittest.TestCase):
    def setUp(self):
        self.top = Path(tempfile.mkdtemp())
        self.addCleanup(shutil.rmtree, self.top)
        (self.top / "tools").mkdir()
        shutil.copy(TOOLS / "uses", self.top / "tools")
        for crate, text in {"low": "// None.\n", "high": "use low::Thing;\n"}.items():
            (self.top / "crates" / crate / "src").mkdir(parents=True)
            (self.top / "crates" / crate / "src" / "lib.rt").write_text(text)

    def said(self, lines, *words):
        (self.top / "crates.txt").write_text(lines)
        ran = subprocess.run([self.top / "tools" / "uses", *words], capture_output=True, text=True)
        return ran.returncode, ran.stdout

    def test_right(self):
        self.assertEqual(self.said("# two\nlow:\nhigh: low\n", "check"), (0, ""))

    def test_wrong(self):
        for lines, word in (("low:\nhigh:\n", "high"), ("low: high\nhigh: low\n", "low"), ("low:\n", "high"), ("low:\nhigh: low\ngone:\n", "gone")):
            status, said = self.said(lines, "check")
            self.assertEqual((status, said.split()[1]), (1, word), lines)

    def test_named(self):
        """A path of definitions names its crate; a module that comes from elsewhere, a comment and what rt made name none."""
        low, high = (self.top / "crates" / name / "src" / "lib.rt" for name in ("low", "high"))
        high.write_text("ghost use Rattle.low.specs.A.{b};\n")
        self.assertEqual(self.said("low:\nhigh: low\n", "check"), (0, ""))
        high.write_text("use std::low;\n// low::a, Rattle.low.specs\nfn f() { low::g() }\n")
        (high.parent.parent / "out").mkdir()
        (high.parent.parent / "out" / "made.antt").write_text("use Rattle.low.specs.A.{b}\n")
        self.assertEqual(self.said("low:\nhigh:\n", "check"), (0, ""))

    def test_kind(self):
        high = self.top / "crates" / "high" / "src" / "lib.rt"
        high.write_text("use low::Thing;\n#[unsafe(no_mangle)]\npub extern \"C\" fn f() {}\n")
        self.assertEqual(self.said("low:\nhigh staticlib: low\n", "check"), (0, ""))
        for lines, word in (("low:\nhigh: low\n", "high"), ("low staticlib:\nhigh staticlib: low\n", "low")):
            status, said = self.said(lines, "check")
            self.assertEqual((status, said.split()[1]), (1, word), lines)
            self.assertEqual(self.said(lines), (0, ""))
            self.assertEqual((self.top / "crates.txt").read_text(), "low:\nhigh staticlib: low\n")

    def test_written(self):
        self.assertEqual(self.said("# two\nlow: high\nhigh:\n"), (0, ""))
        self.assertEqual((self.top / "crates.txt").read_text(), "# two\nlow:\nhigh: low\n")


if __name__ == "__main__":
    unittest.main()
