"""Writes one self-contained HTML page of a project: source and schedule, FIFO bits, links, and the words of a run.

    python3 -m kalebrush page blur.maxj --table one.json --in x=picture.png --to blur.html
"""
from __future__ import annotations

import argparse
import pathlib

from kalebrush.commands.given import add_project, add_run, given, project_of
from kalebrush.errors import KalebrushError
from kalebrush.page import RunShown, page


def add(command: argparse.ArgumentParser) -> None:
    """The words of the command."""
    add_project(command)
    add_run(command)
    command.add_argument("--to", metavar="FILE", help="the page (NAME.html)")


def main(options: argparse.Namespace) -> int:
    """Runs the command."""
    project, shown = project_of(options), None
    if options.inputs or not project.inputs:
        run = given(options, project)
        shown = RunShown(run.inputs, project.compare(run.inputs, run.ticks, run.scalars, **run.more), run.shapes)
    path = pathlib.Path(options.to or f"{project.source.stem}.html")
    try:
        path.write_text(page(project, shown), encoding="utf-8")
    except OSError as error:
        raise KalebrushError(f"{path} can't be written: {error.strerror}") from None
    print(path)
    return 0 if shown is None or shown.comparison.agrees else 1
