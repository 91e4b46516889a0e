"""Compiles a source, simulates it over the inputs, works out what is expected, compares both, and writes what left.

    python3 -m kalebrush run blur.maxj --in x=picture.png --out y=smooth.png

Files are pictures (.png, .pgm), tables (.csv), arrays (.npy) or words (any other name). `FILE#r` is a channel of a
picture and `FILE#price` a column of a table. A picture is read line by line, and an output with as many words is
written in its shape.
"""
from __future__ import annotations

import argparse

from kalebrush.commands.given import Given, add_project, add_run, given, pairs
from kalebrush.errors import Refusal, ValueRefused
from kalebrush.files import Place, Writer
from kalebrush.project import Expected, Simulated, Streams


def add(command: argparse.ArgumentParser) -> None:
    """The words of the command."""
    add_project(command)
    add_run(command)
    command.add_argument(
        "--out", dest="outputs", action="append", default=[], metavar="PORT=FILE", help="where an output goes"
    )
    command.add_argument("--width", type=int, metavar="N", help="the points of a line, of pictures that leave")
    command.add_argument("--no-expect", action="store_true", help="simulates alone")
    command.add_argument(
        "--no-simulate", action="store_true", help="writes the expected words; undefined ones are 0, empty or x"
    )


def main(options: argparse.Namespace) -> int:
    """Runs the command."""
    run = given(options)
    outputs = pairs(options.outputs, "an output")
    for name in outputs:
        if name not in run.project.outputs:
            raise ValueRefused(f"there is no output {name}: they are {', '.join(run.project.outputs) or 'none'}")
    for name, bits in run.project.compiled.fifo_bits.items():
        print(f"kernel {name}: {bits} FIFO bits, the fewest of all schedules")
    simulated = None if options.no_simulate else _simulated(run)
    expected = None if options.no_expect else _expected(run)
    agrees = _compared(run, simulated, expected)
    found = simulated or expected
    if found is None:
        raise ValueRefused("nothing is left to do: take out --no-expect or --no-simulate")
    _write(run, found, outputs, options.width)
    return 0 if agrees and (simulated is None or simulated.done) else 1


def _simulated(run: Given) -> Simulated:
    simulated = run.project.simulate(run.inputs, run.ticks, run.scalars, **run.more)
    print(f"simulated: {simulated.line}")
    return simulated


def _expected(run: Given) -> Expected | None:
    try:
        expected = run.project.expect(run.inputs, run.ticks, run.scalars)
    except Refusal as refusal:
        if refusal.code != "X1":
            raise
        print("expected: not worked out, the run has too many words (X1)")
        return None
    print(f"expected: {', '.join(expected.lines)}")
    return expected


def _compared(run: Given, simulated: Simulated | None, expected: Expected | None) -> bool:
    """Says how both compare: whether nothing differs."""
    if simulated is None or expected is None:
        return True
    found = run.project.compared(simulated, expected, run.inputs, run.ticks, run.scalars)
    for difference in found.differences:
        print(difference)
    if found.agrees:
        print(f"all {found.agreeing} defined words agree, {found.undefined} are undefined")
    return found.agrees


def _write(run: Given, found: Streams, outputs: dict[str, str], width: int | None) -> None:
    writer = Writer(width)
    for name, word in outputs.items():
        writer.write(Place.of(word), run.output(found, name))
        print(f"{word}: {found[name].size} words of output {name}")
    writer.close()
