"""Many runs of a source: by tables, patterns of stalls and numbers of ticks."""
from __future__ import annotations

import itertools
import json
import os
from concurrent.futures import Executor, ProcessPoolExecutor
from dataclasses import dataclass
from typing import Any

import numpy as np

from kalebrush.errors import KalebrushError, Refusal
from kalebrush.progress import Bar
from kalebrush.project import Project


@dataclass(frozen=True)
class Task:
    """A run that is sent to a worker: all that it needs, and no file."""

    source: str
    table_name: str
    table: dict[str, Any]
    stalls: int
    ticks: int
    inputs: dict[str, np.ndarray]
    scalars: dict[str, Any]


@dataclass(frozen=True)
class Point:
    """What a run said: FIFO bits of all kernels, words that links hold, and edges; or why it was refused."""

    table: str
    stalls: int
    ticks: int
    bits: int | None = None
    link_words: int | None = None
    edges: int | None = None
    refused: str = ""

    @property
    def throughput(self) -> float | None:
        """Ticks an edge."""
        return self.ticks / self.edges if self.edges else None

    def cells(self) -> list[str]:
        """A row of a table."""
        share = f"{self.throughput:.3f}" if self.edges else "-"
        numbers = [value if value is not None else "-" for value in (self.bits, self.link_words, self.edges)]
        return [self.table, *map(str, (self.stalls, self.ticks, *numbers)), share, self.refused]


HEAD = ["table", "stalls", "ticks", "FIFO bits", "link words", "edges", "ticks an edge", "refused"]


def tasks(
    source: str, tables: dict[str, dict], stalls: list[int], ticks: list[int], inputs: dict, scalars: dict
) -> list[Task]:
    """All combinations. Inputs are repeated where a run has more ticks than they have words."""
    found = []
    for (name, table), pattern, count in itertools.product(tables.items(), stalls, ticks):
        repeated = {port: np.resize(np.asarray(values).reshape(-1), count) for port, values in inputs.items()}
        found.append(Task(source, name, table, pattern, count, repeated, scalars))
    return found


def measured(task: Task) -> Point:
    """The point of a task."""
    project = Project.from_text(task.source, task.table, progress=False)
    try:
        bits = sum(project.compiled.fifo_bits.values())
        left = project.simulate(task.inputs, task.ticks, task.scalars, stalls=task.stalls)
    except Refusal as refusal:
        return Point(task.table_name, task.stalls, task.ticks, refused=refusal.said)
    words = sum(project.compiled.depths)
    if not left.done:
        return Point(task.table_name, task.stalls, task.ticks, bits, words, refused=left.line)
    return Point(task.table_name, task.stalls, task.ticks, bits, words, left.edges)


def measured_here(found: list[Task], processes: int | None = None) -> list[Point]:
    """The points of tasks, by processes of this machine."""
    with ProcessPoolExecutor(processes or max(1, (os.cpu_count() or 2) // 2)) as pool:
        return _gathered(pool, found)


def _gathered(pool: Executor, found: list[Task]) -> list[Point]:
    bar, points = Bar("sweep"), []
    for point in pool.map(measured, found):
        points.append(point)
        bar.update(len(points) / len(found))
    bar.close()
    return points


def measured_there(found: list[Task], scheduler: str) -> list[Point]:
    """The points of tasks, by the workers of a dask.distributed scheduler; each has this package and the program."""
    try:
        from distributed import Client
    except ModuleNotFoundError:
        raise KalebrushError("--scheduler needs dask.distributed (apt install python3-distributed)") from None
    try:
        client = Client(scheduler, timeout=15)
    except OSError as error:
        raise KalebrushError(f"no scheduler at {scheduler}: {error}") from None
    with client:
        return client.gather(client.map(measured, found, pure=False))


def markdown(points: list[Point]) -> str:
    """The points as a table."""
    rows = [HEAD, ["---"] * len(HEAD), *(point.cells() for point in points)]
    return "".join("| " + " | ".join(row) + " |\n" for row in rows)


def json_text(points: list[Point]) -> str:
    """The points as JSON."""
    return json.dumps([{**point.__dict__, "throughput": point.throughput} for point in points], indent=1) + "\n"
