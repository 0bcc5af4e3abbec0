"""Tests of what the rules are held to: a cmap is judged wherever in it its records and subtables are, and no table that needs a number
of glyphs is good without one."""
import pathlib
import struct
import unittest

from font_rules import made, opentype
from font_rules.sfnt import Facts

PLACES = [12, 1000, *range(65_450, 65_540), *range(130_900, 131_080), (1 << 24) - 1, 1 << 24]


def cmap(places, length, body=b""):
    """A cmap of records that point to these places, of this length; its last bytes are the body."""
    records = b"".join(struct.pack(">HHI", 3, 1, place) for place in places)
    return (struct.pack(">HH", 0, len(places)) + records).ljust(length - len(body), b"\xA5") + body


def trimmed(size):
    """A subtable of format 6, of ten bytes, that states a size."""
    return struct.pack(">HHHHH", 6, size, 0, 0, 0)


class Cmap(unittest.TestCase):
    def verdict(self, *table):
        return opentype.cmap(cmap(*table), None)

    def test_a_subtable_may_be_anywhere(self):
        for place in PLACES:
            self.assertEqual(self.verdict([place], place + 10, trimmed(10)), 1)
            self.assertEqual(self.verdict([place], place + 10, trimmed(11)), 7)
            self.assertEqual(self.verdict([place], place + 10, trimmed(9)), 7)
            self.assertEqual(self.verdict([place], place + 10, b"\0\7" + bytes(8)), 6)
            self.assertEqual(self.verdict([place], place + 9, trimmed(10)[:9]), 5)
            self.assertEqual(self.verdict([place + 1], place + 10, trimmed(10)), 5)

    def test_records_may_be_anywhere(self):
        for count in (0, 1, 8183, 8184, 65_535):
            end = 4 + 8 * count
            self.assertEqual(self.verdict([end] * count, end + 10, trimmed(10)), 1)
            if count:
                self.assertEqual(opentype.cmap(cmap([end] * count, end)[:-1], None), 4)
                self.assertEqual(self.verdict([end] * (count - 1) + [end + 1], end + 10, trimmed(10)), 5)

    def test_the_first_record_that_is_wrong_decides(self):
        self.assertEqual(self.verdict([70_000, 90_000], 70_010, trimmed(11)), 7)
        self.assertEqual(self.verdict([90_000, 70_000], 70_010, trimmed(11)), 5)

    def test_nothing_is_known_of_how_tables_are_lent(self):
        source = pathlib.Path(opentype.__file__).read_text(encoding="utf-8")
        self.assertEqual([line for line in source.splitlines() if line.startswith(("import", "from"))], ["import struct"])


class WithoutGlyphs(unittest.TestCase):
    def test_no_table_is_good(self):
        judged = [(name, opentype.JUDGES[name](table, facts)) for name, table, facts in made.without_glyphs()]
        self.assertEqual(judged, [("hhea", 5), ("hmtx", 3), ("post", 4), ("post", 4), ("loca", 6)])

    def test_with_one_glyph_they_are(self):
        one = Facts(glyphs=1, metrics=1, loca_format=0, outlines=0)
        self.assertEqual(opentype.hmtx(bytes(4), one), 1)
        self.assertEqual(opentype.post(struct.pack(">I28xHH", 0x20000, 1, 0), one), 1)
        self.assertEqual(opentype.loca(bytes(4), one), 1)


if __name__ == "__main__":
    unittest.main()
