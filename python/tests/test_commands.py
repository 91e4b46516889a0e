"""The command line."""
import contextlib
import io
import json
import pathlib
import tempfile
import unittest

import numpy as np

from kalebrush.cli import main
from kalebrush.shell.top import read_top
from tests.support import DOUBLE, EVERY_THIRD, EXAMPLES, ONE, UNGUARDED, has, needs_program


@needs_program
class Commands(unittest.TestCase):
    def setUp(self):
        kept = tempfile.TemporaryDirectory()
        self.addCleanup(kept.cleanup)
        self.folder = pathlib.Path(kept.name)
        self.source = self.file("double.maxj", DOUBLE)
        self.words = self.file("x.txt", "01\n80\nff\n")

    def file(self, name, text):
        (self.folder / name).write_text(text)
        return str(self.folder / name)

    def said(self, *words):
        """The status of a command, and what it says."""
        out, err = io.StringIO(), io.StringIO()
        with contextlib.redirect_stdout(out), contextlib.redirect_stderr(err):
            status = main([str(word) for word in words])
        return status, out.getvalue(), err.getvalue()

    def test_run(self):
        out = self.folder / "y.csv"
        status, told, _ = self.said("run", self.source, "--in", f"x={self.words}", "--out", f"y={out}")
        self.assertEqual(status, 0)
        self.assertIn("all 3 defined words agree, 0 are undefined", told)
        self.assertEqual(out.read_text(), "y\n2\n0\n254\n")

    def test_run_without_one_of_the_two(self):
        for word, other in (("--no-expect", "expected:"), ("--no-simulate", "simulated:")):
            status, told, _ = self.said("run", self.source, "--in", f"x={self.words}", word)
            self.assertEqual((status, other in told), (0, False))
        status, _, told = self.said("run", self.source, "--in", f"x={self.words}", "--no-expect", "--no-simulate")
        self.assertEqual(status, 1)
        self.assertIn("nothing is left to do", told)

    @unittest.skipUnless(has("PIL"), "needs Pillow")
    def test_a_picture(self):
        from PIL import Image

        Image.fromarray(np.arange(12, dtype=np.uint8).reshape(3, 4), "L").save(self.folder / "x.png")
        words = ["run", self.source, "--in", f"x={self.folder}/x.png", "--out", f"y={self.folder}/y.png"]
        self.assertEqual(self.said(*words)[0], 0)
        with Image.open(self.folder / "y.png") as image:
            self.assertEqual((image.size, image.getpixel((3, 2))), ((4, 3), 22))

    def test_compare(self):
        status, told, _ = self.said("compare", self.source, "--in", f"x={self.words}", "--stalls", "2")
        self.assertEqual((status, told.splitlines()[-1]), (0, "3 defined words agree, 0 are undefined"))
        got = self.file("y.txt", "02\n01\nfe\n")
        status, told, _ = self.said("compare", self.source, "--in", f"x={self.words}", "--got", f"y={got}")
        self.assertEqual(status, 1)
        self.assertIn("output y differs at word 1 of tick 1: 1 left, 0 is expected", told)

    def test_compare_of_an_unguarded_run(self):
        source, words = self.file("loose.maxj", UNGUARDED), self.file("w.txt", "01\n09\n02\n")
        status, told, _ = self.said("compare", source, "--in", f"x={words}", "--fill", "ff")
        self.assertEqual(status, 1)
        self.assertIn("unguarded", told)

    def test_wrong_words(self):
        cases = [
            (["run", "none.maxj"], "there is no file none.maxj"),
            (["run", self.source, "--table", "none.json"], "there is no file none.json"),
            (["run", self.source, "--in", "z=x.txt"], "there is no input z"),
            (["run", self.source, "--in", "x"], "NAME=VALUE"),
            (["run", self.source, "--in", "x=none.txt"], "can't be read"),
            (["run", self.source, "--in", f"x={self.words}", "--out", "z=y.txt"], "there is no output z"),
            (["run", self.source, "--in", f"x={self.words}", "--ticks", "many"], "many is no number"),
            (["shell", "none.v"], "can't be read"),
            (["shell", self.source], "no module"),
        ]
        for words, wanted in cases:
            with self.subTest(words):
                status, _, told = self.said(*words)
                self.assertEqual(status, 1)
                self.assertIn(wanted, told)
        with self.assertRaises(SystemExit), contextlib.redirect_stderr(io.StringIO()):
            main(["nothing"])

    def test_a_refusal(self):
        source = self.file("bad.maxj", DOUBLE.replace("x + x", "x +"))
        status, told, more = self.said("run", source, "--in", f"x={self.words}")
        self.assertEqual((status, told.split()[:2]), (1, ["refused", "S3"]))
        self.assertIn("bad.maxj:5:", more)

    @unittest.skipUnless(has("matplotlib"), "needs Matplotlib")
    def test_plot(self):
        source, words = EXAMPLES / "crossing/crossing.maxj", EXAMPLES / "crossing/price.txt"
        options = ["--table", ONE, "--in", f"price={words}", "--to", self.folder / "plots"]
        status, told, _ = self.said("plot", source, *options)
        self.assertEqual(status, 0)
        names = [pathlib.Path(line).name for line in told.splitlines()]
        kernels = ("Means", "Compare", "Mark")
        self.assertEqual(names, [*(f"schedule_{name}.svg" for name in kernels), "fifo.svg", "links.svg", "words.svg"])
        self.assertIn("cast (line 12)", (self.folder / "plots/fifo.svg").read_text())

    def test_page(self):
        to = self.folder / "page.html"
        status, _, _ = self.said("page", self.source, "--in", f"x={self.words}", "--to", to)
        text = to.read_text()
        self.assertEqual(status, 0)
        for wanted in ("all 3 defined words agree", 'id="Double.0"', 'id="Double:4"', 'data-hex="fe" data-value="254"'):
            self.assertIn(wanted, text)
        for foreign in ("http:", "https:", 'src="/', "<link"):
            self.assertNotIn(foreign, text)

    def test_sweep(self):
        words = [
            "--stalls",
            "0",
            "1",
            "--ticks",
            "5",
            "9",
            "--tables",
            ONE,
            "--in",
            f"x={self.words}",
            "--processes",
            "2",
        ]
        status, told, _ = self.said("sweep", self.source, *words, "--json", self.folder / "points.json")
        self.assertEqual((status, len(told.splitlines())), (0, 6))
        points = json.loads((self.folder / "points.json").read_text())
        self.assertEqual(
            [(point["ticks"], point["edges"]) for point in points if not point["stalls"]], [(5, 8), (9, 12)]
        )


@needs_program
class Shells(unittest.TestCase):
    def test_ports_and_owners(self):
        from kalebrush import Project

        top = read_top(Project(EXAMPLES / "crossing/crossing.maxj", ONE).compiled.text)
        self.assertEqual(top.kernels, ["Means", "Compare", "Mark"])
        self.assertEqual(
            [(stream.name, stream.width, stream.kernel) for stream in top.inputs], [("price", 16, "Means")]
        )
        self.assertEqual([(stream.name, stream.kernel) for stream in top.outputs], [("at", "Mark"), ("tick", "Mark")])

    def test_files_of_a_shell(self):
        with tempfile.TemporaryDirectory() as kept:
            folder = pathlib.Path(kept)
            (folder / "third.maxj").write_text(EVERY_THIRD)
            (folder / "x.csv").write_text("x\n-3\n0\n5\n1\n")
            from kalebrush import Project

            Project(folder / "third.maxj").compile(folder / "third.v")
            words = ["shell", folder / "third.v", "--to", folder / "shell", "--source", folder / "third.maxj"]
            words += ["--in", f"x={folder}/x.csv", "--scalar", "by=-2"]
            with contextlib.redirect_stdout(io.StringIO()):
                self.assertEqual(main(list(map(str, words))), 0)
            wrapper = (folder / "shell/third_axi.v").read_text()
            for port in ("s_axis_x_tdata", "m_axis_y_tlast", "s_axil_wstrb", "output wire [15:0] m_axis_y_tdata"):
                self.assertIn(port, wrapper)
            self.assertIn("{{4{out_word_y[11]}}, out_word_y}", wrapper)
            self.assertEqual((folder / "shell/out_y.mem").read_text().split(), ["006", "ffe"])
            compile((folder / "shell/test_third_axi.py").read_text(), "test_third_axi.py", "exec")


if __name__ == "__main__":
    unittest.main()
