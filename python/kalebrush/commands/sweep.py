"""Compiles and simulates by several tables, patterns of stalls and ticks: a table of bits, edges and throughput.

    python3 -m kalebrush sweep fir.maxj --tables zero.json one.json --stalls 0 1 2 --ticks 100 1000 --in x=x.txt
    python3 -m kalebrush sweep fir.maxj --tables zero.json one.json --scheduler tcp://there:8786 --plot sweep.svg

Runs go on here in several processes, or where a dask.distributed scheduler sends them. Its workers need this package
and the program: start them with the same PYTHONPATH. An input without a file gets random words.
"""
from __future__ import annotations

import argparse
import json
import pathlib

import numpy as np

from kalebrush import files, sweep
from kalebrush.commands.given import number, pairs
from kalebrush.errors import KalebrushError, ValueRefused
from kalebrush.files import Place
from kalebrush.project import Project, zero_table


def add(command: argparse.ArgumentParser) -> None:
    """The words of the command."""
    command.add_argument("source", help="the source, NAME.maxj")
    command.add_argument(
        "--tables", nargs="+", default=[], metavar="TABLE", help="latency tables (none: no operation takes a tick)"
    )
    command.add_argument("--stalls", nargs="+", type=int, default=[0], metavar="N", help="patterns of stalls (0)")
    command.add_argument("--ticks", nargs="+", type=int, default=[1000], metavar="N", help="numbers of ticks (1000)")
    command.add_argument(
        "--in", dest="inputs", action="append", default=[], metavar="PORT=FILE", help="the values of an input"
    )
    command.add_argument("--scalar", action="append", default=[], metavar="NAME=VALUE", help="the value of a scalar")
    command.add_argument("--processes", type=int, metavar="N", help="how many run at once here")
    command.add_argument("--scheduler", metavar="ADDRESS", help="the address of a dask.distributed scheduler")
    command.add_argument("--plot", metavar="FILE", help="a picture of the points")
    command.add_argument("--json", metavar="FILE", help="the points as JSON")


def main(options: argparse.Namespace) -> int:
    """Runs the command."""
    if not pathlib.Path(options.source).is_file():
        raise ValueRefused(f"there is no file {options.source}")
    source = pathlib.Path(options.source).read_text(encoding="utf-8")
    tables = {pathlib.Path(name).stem: _table(name) for name in options.tables} or {"zero": zero_table()}
    inputs = _inputs(source, options)
    scalars = {name: number(value) for name, value in pairs(options.scalar, "a scalar").items()}
    found = sweep.tasks(source, tables, options.stalls, options.ticks, inputs, scalars)
    points = (
        sweep.measured_there(found, options.scheduler)
        if options.scheduler
        else sweep.measured_here(found, options.processes)
    )
    print(sweep.markdown(points), end="")
    if options.json:
        pathlib.Path(options.json).write_text(sweep.json_text(points))
    if options.plot:
        from kalebrush import plots

        print(plots.save(plots.sweep_figure(points), pathlib.Path(options.plot)))
    return 0


def _table(name: str) -> dict:
    try:
        return json.loads(pathlib.Path(name).read_text())
    except OSError as error:
        raise KalebrushError(f"{name} can't be read: {error.strerror}") from None
    except ValueError as error:
        raise KalebrushError(f"{name} is no JSON: {error}") from None


def _inputs(source: str, options: argparse.Namespace) -> dict[str, np.ndarray]:
    """The values of each input: those of its file, or random words."""
    project = Project.from_text(source)
    named, found = pairs(options.inputs, "an input"), {}
    noise = np.random.default_rng(1)
    for name, port in project.inputs.items():
        if name in named:
            found[name], _ = files.read(Place.of(named[name]), name, port.type)
        else:
            words = [
                int.from_bytes(noise.bytes(16), "little") >> (128 - port.type.width) for _ in range(max(options.ticks))
            ]
            found[name] = port.type.decode(np.array(words, np.uint64 if port.type.width <= 64 else object))
    return found
