#!/usr/bin/env python3
"""Compares bench/stream_equations.py, the evaluator of the stream equations, with worked kernels and their words, and with the
words that are to leave the examples, which plain programs for their algorithms computed (examples/models.py).

    bench/check_equations.py     ends with status 1 where words differ
"""
import pathlib
import sys

import building_run
import icarus_words
import testbench
from stream_equations import Streams, nodes_of

HERE = pathlib.Path(__file__).resolve().parent
EXAMPLES = sorted(HERE.parent.glob("examples/*/*.maxj"))
SQUARES = """class Squares extends Kernel { Squares(KernelParameters p) { super(p);
  DFEVar x = io.input("x", dfeUInt(128)); io.output("y", x * x, dfeUInt(128)); } }"""
EVERY_THIRD = """class Keep extends Kernel { Keep(KernelParameters p) { super(p);
  DFEVar x = io.input("x", dfeUInt(8));
  io.output("y", Reductions.streamHold(x, control.count.simpleCounter(2) === 2), dfeUInt(8)); } }"""
ONE_TO_FOUR = {"x": [1, 2, 3, 4]}

# the source, the ticks, the words of its inputs, and the words of its outputs, None where one is undefined
WORKED = [
    ("../examples/double/double.maxj", 2, {"x": [0x80, 0xFF]}, {"y": [0x00, 0xFE]}),
    ("../examples/double/double.maxj", 3, {"x": []}, {"y": [None, None, None]}),
    ("kernels/square.maxj", 2, {"x": [0x03, 0xFF]}, {"y": [0x0C, 0x100]}),
    ("kernels/acc.maxj", 3, {"x": [1, 2, 3]}, {"y": [1, 3, 6]}),
    ("kernels/next.maxj", 4, ONE_TO_FOUR, {"y": [2, 3, 4, None]}),
    ("kernels/guard.maxj", 4, ONE_TO_FOUR, {"y": [2, 3, 4, 0]}),
    ("kernels/fourth.maxj", 8, {"x": list(range(8))}, {"y": [3, 7]}),
    ("kernels/nest.maxj", 6, {}, {"outer": [0, 0, 0, 1, 1, 1], "inner": [0, 1, 2, 0, 1, 2]}),
    ("kernels/ties.maxj", 3, {"x": [0x28, 0x38, 0xD8]}, {"a": [0x2, 0x3, 0xD], "b": [0x3, 0x4, 0xE], "c": [0x2, 0x4, 0xE]}),
    ("kernels/quot.maxj", 3, {"a": [0xF9, 0x80, 0x05], "b": [0x02, 0xFF, 0x00]}, {"q": [0xFD, 0x80, None]}),
    (SQUARES, 1, {"x": [2**128 - 1]}, {"y": [1]}),
    (EVERY_THIRD, 5, {"x": [0x0A, 0x0B, 0x0C, 0x0D, 0x0E]}, {"y": [0, 0, 0x0C, 0x0C, 0x0C]}),
]
# a run with an undefined control, and the first place of one: its node and its tick
UNGUARDED = ("kernels/peek.maxj", 4, ONE_TO_FOUR, (4, 3))


def kernel_nodes(source):
    text = source if "\n" in source else (HERE / source).read_text()
    _, calls = building_run.build(text).kernels[0]
    return nodes_of(calls)


def faults():
    for source, ticks, words, wanted in WORKED:
        streams = Streams(kernel_nodes(source), ticks, words)
        for name, listed in wanted.items():
            got = streams.output(name)
            if got != listed:
                yield f"{source.split(chr(10))[0]}: {name} is {got} and not {listed}"
        if streams.unguarded() is not None:
            yield f"{source.split(chr(10))[0]}: a control is undefined"
    source, ticks, words, place = UNGUARDED
    got = Streams(kernel_nodes(source), ticks, words).unguarded()
    if got != place:
        yield f"{source}: the first undefined control is {got} and not {place}"


def example_faults():
    for source in EXAMPLES:
        for port, words in icarus_words.wanted_of(source, testbench.read_run(source.parent / "run.json")).items():
            expected = (source.parent / f"{port}.expected.txt").read_text().split()
            if len(expected) != len(words) or not icarus_words.beside(expected, words):
                yield f"{source.stem}: {port}.expected.txt isn't {words[:8]}"


def main():
    found = [*faults(), *example_faults()]
    for line in found:
        print(line)
    print(f"check_equations: {len(WORKED) + 1 + len(EXAMPLES)} runs, {len(found)} told otherwise")
    return 1 if found else 0


if __name__ == "__main__":
    sys.exit(main())
