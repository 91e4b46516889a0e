"""Draws a project: the schedule of each kernel, FIFO bits by node, links with starts and depths, and words over ticks.

    python3 -m kalebrush plot blur.maxj --table one.json --to plots
    python3 -m kalebrush plot blur.maxj --table one.json --in x=x.txt --to plots --format png

Words are drawn where inputs are given.
"""
from __future__ import annotations

import argparse
import pathlib

from kalebrush import plots
from kalebrush.commands.given import add_project, add_run, given, project_of

KINDS = ("schedule", "fifo", "links", "words")


def add(command: argparse.ArgumentParser) -> None:
    """The words of the command."""
    add_project(command)
    add_run(command)
    command.add_argument("--to", default=".", metavar="FOLDER", help="the folder that is written")
    command.add_argument("--only", nargs="+", choices=KINDS, default=KINDS, help="what is drawn (all)")
    command.add_argument("--format", default="svg", choices=("svg", "png", "pdf"), help="the kind of pictures (svg)")


def main(options: argparse.Namespace) -> int:
    """Runs the command."""
    project, folder = project_of(options), pathlib.Path(options.to)
    figures = {}
    if "schedule" in options.only:
        figures |= {f"schedule_{schedule.name}": plots.schedule_figure(schedule) for schedule in project.schedules}
    if "fifo" in options.only:
        figures["fifo"] = plots.fifo_figure(project.schedules)
    if "links" in options.only and project.links:
        figures["links"] = plots.links_figure(project)
    if "words" in options.only and options.inputs:
        run = given(options, project)
        figures["words"] = plots.words_figure(
            run.inputs, project.simulate(run.inputs, run.ticks, run.scalars, **run.more), project
        )
    folder.mkdir(parents=True, exist_ok=True)
    for name, figure in figures.items():
        print(plots.save(figure, folder / f"{name}.{options.format}"))
    return 0
