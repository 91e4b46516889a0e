#!/usr/bin/env python3
"""Time and memory of `maxjc expect` on kernels that have as many words in a run as it takes: 2^24 over all nodes and ticks.

Each kernel adds to a word the one of the tick before, so many times over; the runs are short ones of many nodes and long ones of few.
`expect` is to take at most ten seconds and 2 GiB. The words are compared with sums that are worked out here.

    bench/expect_speed.py
"""
import json
import pathlib
import random
import sys
import tempfile

import compile_speed
import trials

WORDS = 2**24
TIME_BAR, MEMORY_BAR = 10.0, 2 * 2**30
CASES = [(1, 32), (31, 32), (2047, 32), (31, 128)]  # how many sums, of words of how many bits
TABLE = {"add": [[1, 1]]}


def source(sums, width):
    return f"""class Sums extends Kernel {{
  Sums(KernelParameters p) {{
    super(p);
    DFEVar v = io.input("x", dfeUInt({width}));
    for (int turn = 0; turn < {sums}; turn++) {{
      v = v + stream.offset(v, -1);
    }}
    io.output("y", v, dfeUInt({width}));
  }}
}}
"""


def nodes_of(sums):
    """The input, two nodes for each sum, and the output."""
    return 2 * sums + 2


def write(work, sums, width):
    """Writes the files of a case, and gives the words of its input."""
    ticks = WORDS // nodes_of(sums)
    chance = random.Random(sums)
    words = [chance.getrandbits(width) for _ in range(ticks)]
    (work / "source.maxj").write_text(source(sums, width))
    (work / "table.json").write_text(json.dumps(TABLE))
    (work / "x.txt").write_text("".join(f"{word:0{width // 4}x}\n" for word in words))
    run = {"ticks": {"Sums": ticks}, "inputs": {"x": "x.txt"}, "outputs": {"y": "y.txt"}, "edges": 1}
    (work / "run.json").write_text(json.dumps(run))
    return words


def lines_of(words, sums, width):
    """The words of the output, those that look back behind the first tick undefined."""
    for _ in range(sums):
        words = [now + before & 2**width - 1 for now, before in zip(words[1:], words)]
    return ["x" * (width // 4)] * sums + [f"{word:0{width // 4}x}" for word in words]


def is_expected(work, sums, width):
    """Whether `expect` writes the words of a case within the bars."""
    words = write(work, sums, width)
    compile_speed.measure(["compile", "source.maxj", "table.json", "text.v", "report"], work)
    said, seconds, memory = compile_speed.measure(["expect", "source.maxj", "table.json", "report", "run.json"], work)
    good = said.split() == ["guarded", "balanced"] and (work / "y.txt").read_text().splitlines() == lines_of(words, sums, width)
    print(f"expect of {nodes_of(sums)} nodes of {width} bits in {len(words)} ticks: {seconds:.2f} s, {memory / 2**20:.0f} MiB"
          + ("" if good else f"; NOT the words that are wanted: {said}"))
    return good and seconds <= TIME_BAR and memory <= MEMORY_BAR


def main():
    trials.build()
    with tempfile.TemporaryDirectory() as folder:
        good = [is_expected(pathlib.Path(folder), sums, width) for sums, width in CASES]
    return 0 if all(good) else 1


if __name__ == "__main__":
    sys.exit(main())
