"""Pictures, tables, arrays and words in files."""
import pathlib
import tempfile
import unittest

import numpy as np

from kalebrush import KalebrushError, ValueRefused, WordType
from kalebrush.files import Output, Place, Writer, read
from tests.support import has

BYTE, COLOUR, FIX = WordType("uint", 8), WordType("uint", 24), WordType("fix", 4, 4, True)


class Files(unittest.TestCase):
    def setUp(self):
        kept = tempfile.TemporaryDirectory()
        self.addCleanup(kept.cleanup)
        self.folder = pathlib.Path(kept.name)

    def place(self, name):
        return Place.of(str(self.folder / name))

    def written(self, name, of, values, shape=(), undefined=None):
        values = np.asarray(values)
        undefined = np.zeros(values.size, bool) if undefined is None else np.array(undefined)
        writer = Writer()
        writer.write(self.place(name), Output("y", of, values, of.encode(values), undefined, shape))
        writer.close()
        return self.folder / name.partition("#")[0]

    def test_each_kind_comes_back(self):
        values = np.arange(12, dtype=np.uint8) * 20
        for name in ("a.pgm", "a.csv", "a.npy", "a.txt", *(["a.png"] if has("PIL") else [])):
            with self.subTest(name):
                self.written(name, BYTE, values, (3, 4))
                found, shape = read(self.place(name), "y", BYTE)
                self.assertEqual(found.tolist(), values.tolist())
                self.assertEqual(len(shape), 1 if name in ("a.csv", "a.txt") else 2)

    def test_deep_greys(self):
        of = WordType("uint", 16)
        for name in ("a.pgm", *(["a.png"] if has("PIL") else [])):
            self.written(name, of, [0, 300, 65535, 7], (2, 2))
            self.assertEqual(read(self.place(name), "y", of)[0].tolist(), [0, 300, 65535, 7], name)

    @unittest.skipUnless(has("PIL"), "needs Pillow")
    def test_colours(self):
        points = [0x102030, 0xFF0001, 0, 0xFFFFFF]
        self.written("c.png", COLOUR, points, (2, 2))
        self.assertEqual(read(self.place("c.png"), "x", COLOUR)[0].tolist(), points)
        self.assertEqual(read(self.place("c.png#g"), "x", BYTE)[0].tolist(), [0x20, 0, 0, 255])
        with self.assertRaises(ValueRefused):
            read(self.place("c.png#q"), "x", BYTE)

    @unittest.skipUnless(has("PIL"), "needs Pillow")
    def test_channels_are_gathered(self):
        writer = Writer()
        for channel, values in (("r", [1, 2]), ("b", [3, 4])):
            values = np.array(values, np.uint8)
            output = Output(channel, BYTE, values, BYTE.encode(values), np.zeros(2, bool), (1, 2))
            writer.write(self.place(f"m.png#{channel}"), output)
        writer.close()
        self.assertEqual(read(self.place("m.png"), "x", COLOUR)[0].tolist(), [0x010003, 0x020004])

    def test_columns(self):
        (self.folder / "t.csv").write_text("day, price\n1,2.5\n2,-1\n")
        self.assertEqual(read(self.place("t.csv"), "price", FIX)[0].tolist(), [2.5, -1.0])
        self.assertEqual(read(self.place("t.csv#day"), "x", BYTE)[0].tolist(), [1, 2])
        with self.assertRaisesRegex(ValueRefused, "no column x"):
            read(self.place("t.csv"), "x", BYTE)
        (self.folder / "plain.csv").write_text("4\n5\n")
        self.assertEqual(read(self.place("plain.csv"), "x", BYTE)[0].tolist(), [4, 5])
        (self.folder / "bad.csv").write_text("x\n4\nfour\n")
        with self.assertRaisesRegex(ValueRefused, "row 2"):
            read(self.place("bad.csv"), "x", BYTE)

    def test_undefined_values(self):
        path = self.written("u.csv", BYTE, [1, 2], (), [True, False])
        self.assertEqual(path.read_text(), 'y\n""\n2\n')
        self.assertEqual(self.written("u.txt", BYTE, [1, 2], (), [True, False]).read_text(), "xx\n02\n")

    def test_files_that_cannot_be_read_or_written(self):
        for name in ("none.csv", "none.npy", "none.pgm", "none.txt", *(["none.png"] if has("PIL") else [])):
            with self.subTest(name), self.assertRaisesRegex(KalebrushError, "can't be read"):
                read(self.place(name), "x", BYTE)
        with self.assertRaisesRegex(KalebrushError, "can't be written"):
            self.written("no folder/y.txt", BYTE, [1])
        with self.assertRaisesRegex(ValueRefused, "--width"):
            self.written("y.pgm", BYTE, [1, 2])


if __name__ == "__main__":
    unittest.main()
