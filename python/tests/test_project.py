"""Compiling, checking, expecting and simulating by the program."""
import io
import unittest

import numpy as np

from kalebrush import Project, Refusal, ValueRefused
from kalebrush.progress import Bar
from tests.support import DOUBLE, EVERY_THIRD, EXAMPLES, ONE, UNGUARDED, kernel, needs_program


def words_of(path):
    """The words of a file of an example."""
    return np.array([int(line, 16) for line in path.read_text().split()])


@needs_program
class Projects(unittest.TestCase):
    def test_bits_schedule_and_types(self):
        project = Project(EXAMPLES / "blur/blur.maxj", ONE)
        self.assertEqual(project.compiled.fifo_bits, {"Blur": 258})
        self.assertEqual(project.check(), {"Blur": 258})
        self.assertEqual(str(project.inputs["x"].type), "dfeUInt(8)")
        (schedule,) = project.schedules
        self.assertEqual((schedule.bits, sum(node.fifo_bits for node in schedule.nodes), schedule.last), (258, 258, 19))
        lines = project.source.read_text().splitlines()
        for node in schedule.nodes:
            if node.label.startswith(("input", "output")):
                self.assertIn("io.", lines[node.line - 1])

    def test_words_under_stalls(self):
        project = Project(EXAMPLES / "blur/blur.maxj", ONE)
        x = words_of(EXAMPLES / "blur/x.txt")
        found = project.compare({"x": x}, stalls=3, fill=0xFF)
        self.assertTrue(found.agrees)
        self.assertEqual((found.agreeing, found.undefined), (158, 34))
        self.assertEqual(project.simulate({"x": x}).edges, 213)
        self.assertTrue(found.expected.guarded and found.expected.balanced)
        self.assertEqual(found.expected["y"].dtype, np.uint8)
        self.assertTrue(np.ma.is_masked(found.expected["y"][0]))

    def test_links(self):
        project = Project(EXAMPLES / "crossing/crossing.maxj", ONE)
        self.assertEqual([link.depth for link in project.links], project.compiled.depths)
        found = project.compare({"price": words_of(EXAMPLES / "crossing/price.txt")})
        self.assertTrue(found.agrees)

    def test_signed_words_scalars_and_controls(self):
        project = Project.from_text(EVERY_THIRD)
        x = np.array([-3, 0, 0, 100, 1, 1, 7])
        for scalars in ({"by": -2}, {"Third.by": -2}):
            found = project.compare({"x": x}, scalars=scalars)
            self.assertEqual(found.simulated["y"].tolist(), [6, -200, -14])
            self.assertTrue(found.agrees)

    def test_fixed_point_and_booleans(self):
        text = kernel(
            "    DFEType t = dfeFix(4, 4, SignMode.TWOSCOMPLEMENT);\n"
            '    DFEVar x = io.input("x", t);\n    DFEVar b = io.input("b", dfeBool());\n'
            '    io.output("y", b ? x * 0.5 : x, t);\n    io.output("n", ~b, dfeBool());'
        )
        left = Project.from_text(text).simulate({"x": [1.5, -2.0, 3.0], "b": [True, False, True]})
        self.assertEqual(left["y"].tolist(), [0.75, -2.0, 1.5])
        self.assertEqual(left["n"].tolist(), [False, True, False])

    def test_wide_words(self):
        text = kernel('    DFEVar x = io.input("x", dfeInt(100));\n    io.output("y", x - 1, dfeInt(100));')
        left = Project.from_text(text).simulate({"x": np.array([0, 2**99 - 1], object)})
        self.assertEqual(left["y"].tolist(), [-1, 2**99 - 2])
        self.assertEqual(left["y"].dtype, object)

    def test_first_difference(self):
        project = Project.from_text(UNGUARDED)
        found = project.compare({"x": [1, 9, 2, 8, 5]}, fill=0xFF)
        self.assertFalse(found.agrees or found.expected.guarded)
        (difference,) = found.differences
        self.assertEqual((difference.number, difference.tick, difference.left, difference.wanted), (0, 2, 1, 2))
        self.assertIn("output y differs at word 0 of tick 2: 1 left, 2 is expected", str(difference))

    def test_missing_words(self):
        project = Project.from_text(DOUBLE)
        left = project.simulate({"x": [1, 2, 3]}, edges=4)
        self.assertFalse(left.done)
        (difference,) = project.compared(left, project.expect({"x": [1, 2, 3]}), {"x": [1, 2, 3]}).differences
        self.assertEqual((difference.left, difference.wanted), (None, 2 * (difference.number + 1)))

    def test_another_text(self):
        project = Project.from_text(DOUBLE)
        other = Project.from_text(DOUBLE.replace("x + x", "x + 1"))
        found = project.compare({"x": [1, 2]}, text=other.text_path)
        self.assertEqual([(of.number, of.left, of.wanted) for of in found.differences], [(1, 3, 4)])


@needs_program
class Refusals(unittest.TestCase):
    def test_a_source(self):
        body = '    DFEVar x = io.input("x", dfeUInt(8));\n    io.output("y", x + 300, dfeUInt(8));'
        with self.assertRaises(Refusal) as caught:
            Project.from_text(kernel(body)).compile()
        refusal = caught.exception
        self.assertEqual((refusal.code, refusal.line, refusal.column), ("E3", 5, 20))
        self.assertTrue(refusal.file.endswith("source.maxj"))
        self.assertTrue(refusal.cause and refusal.remedy, refusal.explanation)
        self.assertTrue(refusal.said.startswith("refused E3 "))

    def test_a_loop_and_a_table(self):
        body = (
            '    DFEVar x = io.input("x", dfeUInt(8));\n    DFEVar s = dfeUInt(8).newInstance(this);\n'
            '    s <== stream.offset(s, -1) + x;\n    io.output("y", s, dfeUInt(8));'
        )
        for table, code in (({"add": [[1, 2]]}, "C2"), ({}, "L1"), ({"add": 1}, "T2")):
            with self.subTest(code), self.assertRaises(Refusal) as caught:
                Project.from_text(kernel(body), table).compile()
            self.assertEqual(caught.exception.code, code)

    def test_inputs_that_do_not_fit(self):
        project = Project.from_text(DOUBLE)
        for inputs, told in (({"z": [1]}, "the inputs are x"), ({"x": [300]}, "input x: value 300"), ({}, "inputs")):
            with self.subTest(told), self.assertRaisesRegex(ValueRefused, told):
                project.simulate(inputs, 1)
        with self.assertRaisesRegex(ValueRefused, "no one scalar a"):
            project.simulate({"x": [1]}, scalars={"a": 1})
        with self.assertRaisesRegex(ValueRefused, "ticks"):
            project.simulate({"x": [1]}, {"Other": 1})


class Bars(unittest.TestCase):
    def test_a_bar_is_shown_and_taken_away(self):
        out = io.StringIO()
        bar = Bar("work", True, out)
        bar.update(0.1)
        self.assertEqual(out.getvalue(), "")
        bar.began -= 10
        bar.last -= 10
        bar.update(0.5)
        self.assertIn("50%, 10 s left", out.getvalue())
        bar.close()
        self.assertTrue(out.getvalue().endswith("\r"))

    def test_nothing_where_it_is_not_a_terminal(self):
        out = io.StringIO()
        bar = Bar("work", None, out)
        bar.began -= 10
        bar.update(0.5)
        bar.close()
        self.assertEqual(out.getvalue(), "")


if __name__ == "__main__":
    unittest.main()
