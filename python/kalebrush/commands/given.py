"""What several commands have in common: the words for a project and for a run."""
from __future__ import annotations

import argparse
import pathlib
from dataclasses import dataclass
from typing import Any

import numpy as np

from kalebrush import files
from kalebrush.errors import ValueRefused
from kalebrush.files import Output, Place
from kalebrush.project import Project, Streams


def add_project(command: argparse.ArgumentParser) -> None:
    """The words that name a project."""
    command.add_argument("source", help="the source, NAME.maxj")
    command.add_argument("--table", help="the latency table; without it no operation takes a tick")


def add_run(command: argparse.ArgumentParser) -> None:
    """The words that say a run."""
    command.add_argument(
        "--in", dest="inputs", action="append", default=[], metavar="PORT=FILE", help="the values of an input"
    )
    command.add_argument("--scalar", action="append", default=[], metavar="NAME=VALUE", help="the value of a scalar")
    command.add_argument(
        "--ticks", action="append", default=[], metavar="[KERNEL=]N", help="the ticks of all kernels, or of one"
    )
    command.add_argument(
        "--stalls", type=int, default=0, metavar="N", help="the number of a pattern of stalls (0: none)"
    )
    command.add_argument(
        "--fill", type=lambda word: int(word, 16), default=0, metavar="HEX", help="what registers hold at first"
    )
    command.add_argument("--edges", type=int, metavar="N", help="the most clock edges")


def pairs(words: list[str], what: str) -> dict[str, str]:
    """Words `NAME=VALUE` as a dictionary."""
    found = {}
    for word in words:
        name, sign, value = word.partition("=")
        if not sign or not name or not value:
            raise ValueRefused(f"{what} is NAME=VALUE, and not {word}")
        found[name] = value
    return found


def number(word: str) -> Any:
    """A number of the command line: whole, or with a point."""
    try:
        return int(word, 0)
    except ValueError:
        pass
    try:
        return float(word)
    except ValueError:
        raise ValueRefused(f"{word} is no number") from None


@dataclass
class Given:
    """A project and a run as the command line says them; `shapes` are those of the files that come in."""

    project: Project
    inputs: dict[str, np.ndarray]
    shapes: list[tuple[int, ...]]
    ticks: Any
    scalars: dict[str, Any]
    more: dict[str, Any]

    def shape_of(self, count: int) -> tuple[int, ...]:
        """The shape of the first file that comes in with so many values in several lines, or none."""
        return next((shape for shape in self.shapes if len(shape) > 1 and int(np.prod(shape)) == count), ())

    def output(self, streams: Streams, name: str) -> Output:
        """An output as it goes to a file."""
        values, undefined = streams[name], streams.undefined[name]
        return Output(
            name, streams.ports[name].type, values, streams.words[name], undefined, self.shape_of(values.size)
        )


def project_of(options: argparse.Namespace) -> Project:
    """The project that the command line names."""
    if not pathlib.Path(options.source).is_file():
        raise ValueRefused(f"there is no file {options.source}")
    if options.table and not pathlib.Path(options.table).is_file():
        raise ValueRefused(f"there is no file {options.table}")
    return Project(options.source, options.table)


def ticks_of(words: list[str]) -> Any:
    """The ticks of the command line."""
    if not words:
        return None
    if len(words) == 1 and "=" not in words[0]:
        return int(number(words[0]))
    return {name: int(number(value)) for name, value in pairs(words, "ticks").items()}


def given(options: argparse.Namespace, project: Project | None = None) -> Given:
    """The run that the command line says."""
    project = project or project_of(options)
    inputs, shapes = {}, []
    for name, word in pairs(options.inputs, "an input").items():
        if name not in project.inputs:
            raise ValueRefused(f"there is no input {name}: they are {', '.join(project.inputs) or 'none'}")
        inputs[name], shape = files.read(Place.of(word), name, project.inputs[name].type)
        shapes.append(shape)
    scalars = {name: number(value) for name, value in pairs(options.scalar, "a scalar").items()}
    more = {"stalls": options.stalls, "fill": options.fill, "edges": options.edges}
    return Given(project, inputs, shapes, ticks_of(options.ticks), scalars, more)
