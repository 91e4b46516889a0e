"""Values and words of each kind of type."""
import unittest
from fractions import Fraction

import numpy as np

from kalebrush import ValueRefused, WordType
from kalebrush.words import read_words, text_of, words_of

BOOL, BYTE, SMALL = WordType("bool", 1), WordType("uint", 8), WordType("int", 5, 0, True)
FIX, WIDE, WIDE_FIX = WordType("fix", 4, 12, True), WordType("int", 100, 0, True), WordType("fix", 30, 60, True)


class Values(unittest.TestCase):
    def back(self, of, values):
        words = of.encode(values)
        self.assertTrue(all(0 <= int(word) < 1 << of.width for word in words))
        return of.decode(words)

    def test_each_value_comes_back(self):
        for of, values in [
            (BOOL, [True, False, True]),
            (BYTE, [0, 7, 255]),
            (SMALL, [-16, -1, 0, 15]),
            (FIX, [-8.0, -0.5, 7.75]),
            (WIDE, [-(2**99), -1, 2**99 - 1]),
            (WordType("uint", 64), [0, 2**64 - 1]),
            (WordType("int", 64, 0, True), [-(2**63), 5]),
            (WordType("uint", 128), [2**128 - 1, 1]),
            (WIDE_FIX, [Fraction(1, 2**60), Fraction(-5, 4)]),
        ]:
            with self.subTest(str(of)):
                self.assertEqual(self.back(of, np.array(values, object if of.width > 63 else None)).tolist(), values)

    def test_element_types(self):
        kinds = {BOOL: bool, BYTE: np.uint8, SMALL: np.int8, FIX: float, WIDE: object, WordType("uint", 33): np.uint64}
        for of, kind in kinds.items():
            self.assertEqual(of.decode(np.array([1], np.uint64)).dtype, np.dtype(kind), str(of))

    def test_words_of_signed_values(self):
        self.assertEqual(SMALL.encode([-1, -16]).tolist(), [0x1F, 0x10])
        self.assertEqual(FIX.encode([-0.5]).tolist(), [0xF800])
        self.assertEqual(WIDE.encode(np.array([-1], object))[0], 2**100 - 1)

    def test_fixed_point_is_rounded_to_even(self):
        self.assertEqual(WordType("fix", 8, 0).encode([0.5, 1.5, 2.5]).tolist(), [0, 2, 2])

    def test_values_outside_are_refused(self):
        for of, values in [
            (BYTE, [3, 256]),
            (BYTE, [0, -1]),
            (SMALL, [0, 16]),
            (FIX, [0, 8.0]),
            (BYTE, [0, 2.5]),
            (BOOL, [0, 2]),
        ]:
            with self.subTest(f"{of} {values}"), self.assertRaisesRegex(ValueRefused, "index 1"):
                of.encode(np.array(values))
        with self.assertRaises(ValueRefused):
            BYTE.encode([float("nan")])
        with self.assertRaises(ValueRefused):
            WIDE.encode(np.array(["x"], object))

    def test_undefined_inputs_are_refused(self):
        with self.assertRaises(ValueRefused):
            BYTE.encode(np.ma.MaskedArray([1, 2], mask=[False, True]))

    def test_empty(self):
        self.assertEqual(BYTE.encode([]).size, 0)
        self.assertEqual(WIDE.decode(WIDE.encode([])).size, 0)

    def test_names(self):
        self.assertEqual([str(of) for of in (BOOL, BYTE, SMALL)], ["dfeBool()", "dfeUInt(8)", "dfeInt(5)"])
        self.assertEqual(str(FIX), "dfeFix(4, 12, SignMode.TWOSCOMPLEMENT)")


class Words(unittest.TestCase):
    def test_text_and_back(self):
        for width in (1, 4, 5, 8, 33, 64, 65, 128):
            words = np.array([0, 1, (1 << width) - 1], np.uint64 if width <= 64 else object)
            text = text_of(words, width, [False, True, False])
            found, undefined = words_of(text, width)
            self.assertEqual(undefined.tolist(), [False, True, False])
            self.assertEqual([int(word) for word in found], [0, 0, (1 << width) - 1])

    def test_lines_of_other_lengths(self):
        found, undefined = words_of(b"1\n0F\nxx\nff", 8)
        self.assertEqual((found.tolist(), undefined.tolist()), ([1, 15, 0, 255], [False, False, True, False]))

    def test_bad_lines(self):
        for text in (b"1\n\n2\n", b"1g\n", b"1ff\n", b"-1\n"):
            with self.subTest(text), self.assertRaisesRegex(ValueRefused, "line"):
                words_of(text, 8)
        with self.assertRaisesRegex(ValueRefused, "line 2 has more than 5 bits"):
            words_of(b"1f\n20\n", 5)

    def test_a_file_of_nothing(self):
        self.assertEqual(words_of(b"", 8)[0].size, 0)
        with self.assertRaises(OSError):
            read_words(__import__("pathlib").Path("/nowhere/x"), 8)


if __name__ == "__main__":
    unittest.main()
