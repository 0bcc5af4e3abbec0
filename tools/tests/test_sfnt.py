"""Tests of the font reader: it gives the tables that are there, and refuses with one line what is not whole."""
import pathlib
import struct
import tempfile
import unittest

from font_rules import sfnt
from tests.small_fonts import collection, directory, font

TABLES = {"head": bytes(50) + b"\0\1" + bytes(2), "maxp": b"\0\0\x50\0\1\2", "glyf": b"outlines"}


class Sfnt(unittest.TestCase):
    def setUp(self):
        folder = tempfile.TemporaryDirectory()
        self.addCleanup(folder.cleanup)
        self.path = pathlib.Path(folder.name) / "Small.ttf"

    def faces(self, file):
        self.path.write_bytes(file)
        return sfnt.faces(self.path)

    def refusal(self, file):
        """The line by which a file is refused."""
        with self.assertRaises(sfnt.Unreadable) as refused:
            self.faces(file)
        line = str(refused.exception)
        self.assertTrue(line.isprintable(), line)
        self.assertTrue(line.startswith("Small.ttf"), line)
        return line

    def test_the_tables_of_a_font(self):
        for kind in (b"\0\1\0\0", b"OTTO", b"true"):
            face, = self.faces(font(TABLES, kind))
            self.assertEqual(face, ("Small.ttf", TABLES))

    def test_a_font_cut_anywhere_is_refused(self):
        whole = font(TABLES)
        for length in range(len(whole)):
            self.refusal(whole[:length])
        self.assertEqual(self.refusal(b""), "Small.ttf: the file is empty")
        self.assertEqual(self.refusal(whole[:3]), "Small.ttf: header: bytes 0 to 12, and the file has 3")
        self.assertEqual(self.refusal(whole[:59]), "Small.ttf: directory of 3 tables: bytes 12 to 60, and the file has 59")
        self.assertEqual(self.refusal(whole[:-1]), f"Small.ttf: table glyf: bytes 120 to 128, and the file has {len(whole) - 1}")

    def test_a_table_past_the_end_is_refused(self):
        at = len(directory([("glyf", 0, 0)]))
        for offset, length in ((at, 1), (at + 1, 0), (0, at + 1), (0xFFFFFFFF, 0xFFFFFFFF), (at - 1, 2)):
            line = self.refusal(directory([("glyf", offset, length)]))
            self.assertEqual(line, f"Small.ttf: table glyf: bytes {offset} to {offset + length}, and the file has {at}")

    def test_an_empty_table_at_the_end_is_there(self):
        face, = self.faces(font({"glyf": b""}))
        self.assertEqual(face.tables, {"glyf": b""})

    def test_two_tables_with_one_tag_are_refused(self):
        self.assertEqual(self.refusal(directory([("glyf", 0, 1), ("loca", 0, 1), ("glyf", 0, 1)])), "Small.ttf: two tables glyf")

    def test_a_strange_tag_is_shown_on_one_line(self):
        self.assertIn("two tables 0a 67 ff 20", self.refusal(directory([("\ng\xff ", 0, 1), ("\ng\xff ", 0, 1)])))

    def test_what_is_no_font_is_refused(self):
        self.assertEqual(self.refusal(b"hello, world"), "Small.ttf: no font begins with the bytes 68 65 6c 6c")
        self.assertIn("a WOFF file", self.refusal(b"wOFF" + font(TABLES)))
        self.assertIn("a WOFF2 file", self.refusal(b"wOF2" + font(TABLES)))

    def test_a_file_that_is_not_there(self):
        with self.assertRaisesRegex(sfnt.Unreadable, "Small.ttf: No such file or directory$"):
            sfnt.faces(self.path)

    def test_the_faces_of_a_collection(self):
        faces = [TABLES, {"head": b"other", "glyf": TABLES["glyf"]}, {}]
        for version in (1, 2):
            found = self.faces(collection(faces, version))
            self.assertEqual(found, [(f"Small.ttf#{index}", tables) for index, tables in enumerate(faces)])
            self.assertIs(found[0].tables["glyf"].obj, found[1].tables["glyf"].obj)

    def test_a_collection_cut_anywhere_is_refused(self):
        for version in (1, 2):
            whole = collection([TABLES, {"head": b"other"}], version)
            for length in range(len(whole)):
                self.refusal(whole[:length])

    def test_a_signature_must_have_its_place(self):
        for version, line in ((1, "Small.ttf#0: no font"), (2, "the place of the signature: bytes 16 to 28, and the file has 27")):
            self.assertIn(line, self.refusal(b"ttcf" + struct.pack(">HHII", version, 0, 1, 0) + bytes(11)))

    def test_a_count_of_faces_is_held_to_the_file(self):
        for count in (2, 0xFFFFFFFF):
            line = self.refusal(b"ttcf" + struct.pack(">HHII", 1, 0, count, 12))
            self.assertEqual(line, f"Small.ttf: the places of {count} faces: bytes 12 to {12 + 4 * count}, and the file has 16")

    def test_strange_collections_are_refused(self):
        self.assertIn("of no faces", self.refusal(b"ttcf" + struct.pack(">HHI", 1, 0, 0)))
        self.assertIn("of version 3.0", self.refusal(b"ttcf" + struct.pack(">HHII", 3, 0, 1, 0)))
        self.assertIn("Small.ttf#0: no font", self.refusal(b"ttcf" + struct.pack(">HHII", 1, 0, 1, 0)))
        self.assertIn("Small.ttf#0: header", self.refusal(b"ttcf" + struct.pack(">HHII", 1, 0, 1, 16)))
        self.assertIn("Small.ttf#1: header", self.refusal(b"ttcf" + struct.pack(">HHIII", 1, 0, 2, 20, 0xFFFFFFFF) + directory([])))

    def test_the_facts(self):
        hhea = bytes(34) + b"\3\4"
        self.assertEqual(sfnt.facts({**TABLES, "hhea": hhea}), (0x0102, 0x0304, 1, 8))
        self.assertEqual(sfnt.facts({}), (0, 0, 0, 0))

    def test_a_fact_is_0_where_its_table_is_too_short(self):
        self.assertEqual(sfnt.facts({"maxp": b"\0\0\x50\0\1", "hhea": b"\1" * 35, "head": b"\1" * 51}), (0, 0, 0, 0))


if __name__ == "__main__":
    unittest.main()
