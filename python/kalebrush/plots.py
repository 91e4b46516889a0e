"""Pictures of a project, by Matplotlib: schedules, FIFO bits, links, and words over ticks."""
from __future__ import annotations

import pathlib
from typing import Any

import numpy as np

from kalebrush.errors import KalebrushError
from kalebrush.project import Project, Streams
from kalebrush.schedule import Schedule, starts_of
from kalebrush.types import WordType

INK, GREY, MADE, KEPT, MARK = "#24292f", "#8c959f", "#2f6db3", "#e08a1e", "#d1242f"
MOST_NODES, MOST_BARS, MOST_POINTS = 120, 30, 4000


def pyplot() -> Any:
    """Matplotlib without a screen."""
    try:
        import matplotlib
    except ModuleNotFoundError:
        raise KalebrushError("plots need Matplotlib (apt install python3-matplotlib)") from None
    matplotlib.use("Agg")
    matplotlib.rcParams.update(
        {"font.size": 9, "axes.spines.top": False, "axes.spines.right": False, "svg.fonttype": "none"}
    )
    from matplotlib import pyplot as plot

    return plot


def save(figure: Any, path: pathlib.Path) -> pathlib.Path:
    """Writes a figure, and forgets it."""
    figure.savefig(path, bbox_inches="tight", dpi=120)
    pyplot().close(figure)
    return path


def schedule_figure(schedule: Schedule) -> Any:
    """When each node makes its first word, and how long that waits. Nodes that take no part are left out."""
    nodes = [node for node in schedule.nodes if node.is_timed][:MOST_NODES]
    figure, axes = pyplot().subplots(figsize=(8, 1.2 + 0.2 * len(nodes)))
    for row, node in enumerate(nodes):
        end = node.time + node.latency
        axes.barh(row, max(node.latency, 0.12), left=node.time, height=0.55, color=MADE)
        if node.waits:
            axes.plot([end, end + node.waits], [row, row], color=KEPT, linewidth=2, marker="|")
            axes.annotate(f" {node.fifo_bits} bits", (end + node.waits, row), va="center", color=GREY, fontsize=7)
    axes.set_yticks(range(len(nodes)), [f"{node.number} {node.label} (line {node.line})" for node in nodes])
    axes.invert_yaxis()
    axes.set_xlabel("tick in which the first word is made")
    axes.set_title(f"kernel {schedule.name}: {schedule.bits} FIFO bits", loc="left")
    axes.grid(axis="x", color="#e4e8ec")
    axes.set_axisbelow(True)
    return figure


def fifo_figure(schedules: list[Schedule]) -> Any:
    """The FIFO bits behind each node, the most first."""
    found = [
        (node.fifo_bits, schedule.name, node) for schedule in schedules for node in schedule.nodes if node.fifo_bits
    ]
    found.sort(key=lambda entry: -entry[0])
    shown = found[:MOST_BARS]
    figure, axes = pyplot().subplots(figsize=(8, 1.2 + 0.24 * max(1, len(shown))))
    for row, (bits, _, node) in enumerate(shown):
        axes.barh(row, bits, color=KEPT, height=0.6)
        axes.annotate(f" {node.waits} × {node.width} = {bits}", (bits, row), va="center", fontsize=7, color=INK)
    axes.set_yticks(
        range(len(shown)), [f"{name}: {node.number} {node.label} (line {node.line})" for _, name, node in shown]
    )
    axes.invert_yaxis()
    axes.set_xlabel("bits")
    total = sum(bits for bits, _, _ in found)
    rest = f", {len(found) - len(shown)} smaller ones aren't shown" if len(found) > len(shown) else ""
    axes.set_title(f"FIFO bits by node: {total} in all{rest}", loc="left")
    return figure


def links_figure(project: Project) -> Any:
    """When kernels start, and how long words wait in the links between them, where nothing stalls."""
    kernels, links = project.design.kernels, project.links
    starts = starts_of(project.design, project.schedules)
    figure, axes = pyplot().subplots(figsize=(8, 1.4 + 0.35 * (len(kernels) + len(links))))
    labels = []
    for row, (kernel, start, schedule) in enumerate(zip(kernels, starts, project.schedules)):
        axes.barh(row, max(schedule.last, 0.2), left=start, color=MADE, height=0.5)
        labels.append(f"{kernel.name}, start {start}")
    for row, link in enumerate(links, len(kernels)):
        axes.barh(row, max(link.read - link.written, 0.2), left=link.written, color=KEPT, height=0.35)
        axes.annotate(f" depth {link.depth}", (link.read, row), va="center", fontsize=8)
        ends = link.link
        labels.append(
            f"link {ends.number}: {kernels[ends.writer].name}.{ends.output} to {kernels[ends.reader].name}.{ends.input}"
        )
    axes.set_yticks(range(len(labels)), labels)
    axes.invert_yaxis()
    axes.set_xlabel("edge of the ideal run; a kernel's bar is its pipeline, a link's bar the wait of its first word")
    axes.set_title("starts of kernels and depths of links", loc="left")
    return figure


def numbers_of(values: Any, of: WordType) -> tuple[np.ndarray, np.ndarray]:
    """The ticks and the values of a stream as floats, without the undefined ones; thinned where they are many."""
    plain = np.ma.getdata(values)
    known = ~np.ma.getmaskarray(values)
    ticks = np.flatnonzero(known)
    step = max(1, len(ticks) // MOST_POINTS)
    ticks = ticks[::step]
    return ticks, np.array([float(plain[tick]) for tick in ticks])


def words_figure(inputs: dict[str, Any], found: Streams, project: Project) -> Any:
    """The values of inputs and outputs, word by word."""
    rows = [(f"input {name}", values, project.inputs[name].type) for name, values in inputs.items()]
    rows += [(f"output {name}", found[name], project.outputs[name].type) for name in found]
    figure, all_axes = pyplot().subplots(len(rows), 1, figsize=(8, 1.3 * len(rows) + 0.6), squeeze=False)
    for axes, (name, values, of) in zip(all_axes[:, 0], rows):
        ticks, shown = numbers_of(values, of)
        style = {"drawstyle": "steps-post"} if len(ticks) <= 400 else {}
        axes.plot(ticks, shown, color=GREY if name.startswith("input") else MADE, linewidth=0.9, **style)
        axes.set_title(f"{name}, {of}", loc="left", fontsize=8)
        unknown = np.flatnonzero(np.ma.getmaskarray(values))
        if len(unknown) and len(shown):
            axes.plot(unknown[:MOST_POINTS], np.full(min(len(unknown), MOST_POINTS), shown.min()), ",", color=MARK)
    all_axes[-1, 0].set_xlabel("word")
    figure.tight_layout()
    return figure


def sweep_figure(points: list[Any]) -> Any:
    """Bits, edges and throughput of a sweep, over its tables."""
    tables = list(dict.fromkeys(point.table for point in points))
    figure, axes = pyplot().subplots(1, 3, figsize=(11, 3.2))
    bits = [
        next((point.bits for point in points if point.table == table and point.bits is not None), 0) for table in tables
    ]
    axes[0].bar(range(len(tables)), bits, color=KEPT)
    axes[0].set_title("FIFO bits", loc="left")
    axes[0].set_xticks(range(len(tables)), tables, rotation=30, ha="right")
    for table in tables:
        for at, name in ((1, "edges"), (2, "throughput")):
            shown = [
                (point.ticks, getattr(point, name), point.stalls)
                for point in points
                if point.table == table and point.edges
            ]
            shown.sort()
            axes[at].plot([entry[0] for entry in shown], [entry[1] for entry in shown], "o", label=table, markersize=4)
    for at, name in ((1, "edges until done"), (2, "ticks an edge")):
        axes[at].set_title(name, loc="left")
        axes[at].set_xlabel("ticks")
        axes[at].set_ylim(bottom=0)
    axes[1].legend(frameon=False, fontsize=7)
    figure.tight_layout()
    return figure
