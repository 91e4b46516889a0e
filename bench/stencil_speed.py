#!/usr/bin/env python3
"""Time and memory of `maxjc compile` and `maxjc simulate` on an image of 1,920 by 1,080 points.

The kernel is bench/kernels/stencil.maxj: each point becomes the sum of itself, the one above it and the one below it, where there
are such. By a table without latencies its FIFOs hold two lines, 30,720 bits. A whole picture of random words is run until it is
done, and the words that leave are compared with those of a plain program.

    bench/stencil_speed.py [SEED]     ends with status 1 where something is told otherwise or takes too long
"""
import json
import pathlib
import random
import sys
import tempfile

import compile_size
import trials
from trials import TOP

WIDE, HIGH = 1920, 1080
SOURCE = TOP / "bench/kernels/stencil.maxj"
TABLE = TOP / "examples/tables/zero.json"
COMPILE_BAR, SIMULATE_BAR = 1, 60  # seconds
TRIES = 3
LATENCY = WIDE  # the ticks by which a point of the output is behind that of the input


def stencil(points):
    """The sum of each point and its neighbours above and below, modulo 256."""
    nothing = bytes(WIDE)
    up, down = nothing + points[:-WIDE], points[WIDE:] + nothing
    return bytes((a + b + c) & 255 for a, b, c in zip(up, points, down))


def compiled(work):
    """Whether the kernel is compiled in time."""
    words = ["compile", str(SOURCE), str(TABLE), "text.v", "report"]
    tried = [compile_size.watched(words, work) for _ in range(TRIES)]
    (status, said, _, _), seconds = tried[0], min(seconds for _, _, seconds, _ in tried)
    memory = max(memory for _, _, _, memory in tried)
    print(f"compile: {said}, {seconds:.2f} s, {memory / 2**20:.0f} MiB")
    return status == 0 and said == f"kernel Stencil fifo {2 * WIDE * 8}" and seconds <= COMPILE_BAR


def simulated(work, points):
    """Whether a whole picture is run in time, with the right words."""
    ticks = len(points)
    (work / "x.txt").write_text("".join(f"{point:02x}\n" for point in points))
    spec = {"ticks": {"Stencil": ticks}, "inputs": {"x": "x.txt"}, "outputs": {"y": "y.txt"}, "edges": 2 * ticks}
    (work / "run.json").write_text(json.dumps(spec))
    status, said, seconds, memory = compile_size.watched(["simulate", "text.v", "run.json"], work)
    left = bytes.fromhex((work / "y.txt").read_text()) if status == 0 else b""
    same = left == stencil(points)
    rate = ticks / seconds / 1e6
    told = "as expected" if same else "NOT as expected"
    print(f"simulate: {said}, {seconds:.1f} s, {rate:.2f} million ticks a second, {memory / 2**20:.0f} MiB; {len(left)} words, {told}")
    return same and said == f"done after {ticks + LATENCY + 2} edges" and seconds <= SIMULATE_BAR


def main():
    trials.build()
    chance = random.Random(int(sys.argv[1]) if len(sys.argv) > 1 else 1)
    with tempfile.TemporaryDirectory() as folder:
        work = pathlib.Path(folder)
        good = compiled(work) and simulated(work, chance.randbytes(WIDE * HIGH))
    return 0 if good else 1


if __name__ == "__main__":
    sys.exit(main())
