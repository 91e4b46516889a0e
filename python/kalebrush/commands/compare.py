"""Compares a simulation with what is expected: the first word of each output that differs, with its tick.

    python3 -m kalebrush compare blur.maxj --in x=picture.png --stalls 3
    python3 -m kalebrush compare blur.maxj --in x=picture.png --text changed.v
    python3 -m kalebrush compare blur.maxj --in x=picture.png --got y=board.txt

`--text` simulates another text with the same ports; `--got` takes the words of an output from a file, as of a board.
"""
from __future__ import annotations

import argparse

import numpy as np

from kalebrush import files
from kalebrush.commands.given import Given, add_project, add_run, given, pairs
from kalebrush.errors import ValueRefused
from kalebrush.files import Place
from kalebrush.project import Streams


def add(command: argparse.ArgumentParser) -> None:
    """The words of the command."""
    add_project(command)
    add_run(command)
    command.add_argument(
        "--text", metavar="FILE", help="the Verilog text that is simulated, in place of the compiled one"
    )
    command.add_argument(
        "--got", action="append", default=[], metavar="PORT=FILE", help="the words that left, of each output"
    )


def main(options: argparse.Namespace) -> int:
    """Runs the command."""
    run = given(options)
    project, got = run.project, pairs(options.got, "words that left")
    if got:
        left: Streams = _got(run, got)
    else:
        left = project.simulate(run.inputs, run.ticks, run.scalars, text=options.text, **run.more)
        print(f"simulated: {left.line}")
    expected = project.expect(run.inputs, run.ticks, run.scalars)
    print(f"expected: {', '.join(expected.lines)}")
    found = project.compared(left, expected, run.inputs, run.ticks, run.scalars)
    for difference in found.differences:
        print(difference)
    print(f"{found.agreeing} defined words agree, {found.undefined} are undefined")
    return 0 if found.agrees else 1


def _got(run: Given, got: dict[str, str]) -> Streams:
    """The words of files in place of a simulation's."""
    ports = run.project.outputs
    if set(got) != set(ports):
        raise ValueRefused(f"--got names each output: {', '.join(ports)}")
    found = {}
    for name, word in got.items():
        values, _ = files.read(Place.of(word), name, ports[name].type)
        encoded = ports[name].type.encode(values)
        found[name] = (encoded, np.zeros(len(encoded), bool))
    return Streams(ports, found, False)
