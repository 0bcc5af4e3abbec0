"""Tests of tools/lend: what it writes is what examples/README.md says, and where it cannot it says why and writes nothing."""
import pathlib
import struct
import subprocess
import tempfile
import unittest

from tests.small_fonts import collection, font

LEND = pathlib.Path(__file__).resolve().parent.parent / "lend"
LONG = bytes(range(256)) * 300
TABLES = {
    "head": bytes(50) + b"\0\1" + bytes(2),
    "maxp": b"\0\0\x50\0\1\2",
    "hhea": bytes(34) + b"\3\4",
    "glyf": bytes(0x010203),
    "cvt ": b"two words",
    "cmap": LONG,
}
FACTS = b"\2\1" + b"\4\3" + b"\1\0" + b"\3\2\1\0"


class Lend(unittest.TestCase):
    def setUp(self):
        folder = tempfile.TemporaryDirectory()
        self.addCleanup(folder.cleanup)
        self.folder = pathlib.Path(folder.name)
        self.font = self.folder / "Small.ttf"
        self.font.write_bytes(font(TABLES))

    def lend(self, *words):
        return subprocess.run([LEND, *words], capture_output=True, check=False)

    def written(self, *words):
        lent = self.lend(*words)
        self.assertEqual((lent.returncode, lent.stderr), (0, b""))
        return lent.stdout

    def refusal(self, *words):
        lent = self.lend(*words)
        self.assertEqual((lent.returncode, lent.stdout), (2, b""))
        line, end = lent.stderr.decode().split("\n")
        self.assertEqual(end, "")
        return line

    def test_a_table_is_lent_behind_64_bytes(self):
        told = b"KHX1" + b"\x36\0\0\0" + bytes(4) + b"\x36\0" + FACTS + bytes(40)
        self.assertEqual(self.written(self.font, "head"), told + TABLES["head"])

    def test_a_long_table_is_written_whole(self):
        told = b"KHX1" + struct.pack("<IIH", 76_800, 0, 65_468) + FACTS + bytes(40)
        self.assertEqual(self.written(self.font, "cmap"), told + LONG)

    def test_the_bytes_of_a_table_alone(self):
        self.assertEqual(self.written("--raw", self.font, "cmap"), LONG)

    def test_blanks_of_a_tag_may_be_left_out(self):
        self.assertEqual(self.written("--raw", self.font, "cvt"), b"two words")
        self.assertEqual(self.written("--raw", self.font, "cvt "), b"two words")

    def test_a_file_is_written(self):
        output = self.folder / "data"
        self.assertEqual(self.written("-o", output, "--raw", self.font, "maxp"), b"")
        self.assertEqual(output.read_bytes(), TABLES["maxp"])

    def test_a_failure_leaves_no_file(self):
        output = self.folder / "data"
        self.font.write_bytes(self.font.read_bytes()[:-1])
        line = self.refusal("-o", output, self.font, "head")
        self.assertRegex(line, r"^lend: Small\.ttf: table cmap: bytes \d+ to \d+, and the file has \d+$")
        self.assertFalse(output.exists())
        output.write_bytes(b"kept")
        self.refusal("-o", output, self.font, "head")
        self.assertEqual(output.read_bytes(), b"kept")

    def test_the_font_is_not_written_over(self):
        link = self.folder / "link"
        link.symlink_to(self.font)
        for output in (self.font, link):
            self.assertEqual(self.refusal("-o", output, self.font, "head"), f"lend: {output}: it is the font: name another file with -o")
        self.assertEqual(self.font.read_bytes(), font(TABLES))

    def test_a_face_of_a_collection(self):
        self.font.write_bytes(collection([TABLES, {"maxp": b"\0\0\x50\0\0\7"}]))
        self.assertEqual(self.written("--raw", self.font, "maxp", "0"), TABLES["maxp"])
        other = self.written(self.font, "maxp", "1")
        self.assertEqual((other[14:24], other[64:]), (b"\7" + bytes(9), b"\0\0\x50\0\0\7"))

    def test_a_face_must_be_said_and_there(self):
        self.assertEqual(self.refusal(self.font, "head", "1"), "lend: Small.ttf: no face 1: there is one alone, 0")
        self.font.write_bytes(collection([TABLES, TABLES, TABLES]))
        self.assertEqual(self.refusal(self.font, "head"), "lend: Small.ttf: a collection of 3 faces: which one, 0 to 2?")
        for face in ("3", "-1"):
            self.assertIn(f"no face {face}: there are 3", self.refusal(self.font, "head", face))

    def test_a_table_that_is_not_there(self):
        self.assertEqual(self.refusal(self.font, "loca"), "lend: Small.ttf: no table loca: there is head maxp hhea glyf cvt cmap")

    def test_files_that_cannot_be_read_or_written(self):
        self.assertRegex(self.refusal(self.folder / "none", "head"), "^lend: .*none: No such file or directory$")
        self.assertRegex(self.refusal("-o", self.folder / "none" / "data", self.font, "head"), "^lend: .*data: No such file or directory$")

    def test_words_exchanged(self):
        self.assertEqual(self.refusal("head", self.font), "lend: head: no such file: are FONT and TABLE exchanged?")

    def test_usage(self):
        self.assertIn(b"usage: lend", self.written("--help"))
        for words in ((), (self.font,), (self.font, "head", "first"), (self.font, "head", "0", "0"), ("--some", self.font, "head")):
            self.assertIn("lend: error: ", self.refusal(*words))


if __name__ == "__main__":
    unittest.main()
