"""The schedules of a report, node by node, and the starts and depths of links."""
from __future__ import annotations

from dataclasses import dataclass
from typing import Any

from kalebrush.language import Design, Kernel, Link, bench, label_of

CONTROLLED_DEPTH = 512  # of a link with a control at one of its ends


@dataclass(frozen=True)
class Node:
    """A node in a schedule.

    It begins its first word at `time`, has it `latency` ticks later, and then the word waits `waits` ticks.
    """

    number: int
    label: str
    line: int
    width: int
    time: int
    latency: int
    waits: int
    is_timed: bool

    @property
    def fifo_bits(self) -> int:
        """The bits of the FIFO behind the node."""
        return self.waits * self.width


@dataclass(frozen=True)
class Edge:
    """An edge from a node to a reader, which wants the word of `offset` ticks later."""

    start: int
    end: int
    offset: int


@dataclass
class Schedule:
    """The schedule of a kernel: its nodes and edges, and the bits of its FIFOs."""

    name: str
    bits: int
    nodes: list[Node]
    edges: list[Edge]

    @property
    def last(self) -> int:
        """The greatest time."""
        return max((node.time + node.latency for node in self.nodes), default=0)

    def time_of(self, kind: str, name: str) -> int:
        """The time of an input or output."""
        return next(node.time for node in self.nodes if node.label == f"{kind} {name}")


@dataclass(frozen=True)
class LinkDepth:
    """A link with the edge in which its first word is written and read, where nothing waits, and its depth."""

    link: Link
    written: int
    read: int
    depth: int


def schedules_of(design: Design, table: dict[str, Any], report: str) -> list[Schedule]:
    """The schedules that a report says of a design's kernels."""
    parts = bench("report_rules").read(report.encode())
    return [_schedule(kernel, table, part) for kernel, part in zip(design.kernels, parts)]


def _schedule(kernel: Kernel, table: dict[str, Any], part: Any) -> Schedule:
    problem = bench("report_rules").Problem(kernel.name, kernel.calls, table)
    kept = problem.whole(part.times)[problem.count :]
    reads = {edge[0] for edge in problem.kernel.edges}
    timed = reads | {edge[1] for edge in problem.kernel.edges}
    nodes = []
    for number, (call, line) in enumerate(zip(kernel.nodes, kernel.lines)):
        time, latency = part.times[number], problem.ticks[number]
        waits = kept[number] - time - latency if number in reads else 0
        width = problem.kernel.widths[number]
        nodes.append(Node(number, label_of(call), line, width, time, latency, waits, number in timed))
    return Schedule(kernel.name, part.bits, nodes, [Edge(*edge) for edge in problem.kernel.edges])


def starts_of(design: Design, schedules: list[Schedule]) -> list[int]:
    """The least starts of the kernels, from 1 on, by which each link is written before it is read."""
    starts = [1] * len(schedules)
    for _ in schedules:
        for link in design.links:
            written = starts[link.writer] + schedules[link.writer].time_of("output", link.output)
            needed = written + 1 - schedules[link.reader].time_of("input", link.input)
            starts[link.reader] = max(starts[link.reader], needed)
    return starts


def depths_of(design: Design, schedules: list[Schedule]) -> list[LinkDepth]:
    """The links with their depths at these schedules."""
    starts, found = starts_of(design, schedules), []
    for link in design.links:
        written = starts[link.writer] + schedules[link.writer].time_of("output", link.output)
        read = starts[link.reader] + schedules[link.reader].time_of("input", link.input)
        has_control = design.kernels[link.writer].outputs[link.output].is_controlled
        has_control |= design.kernels[link.reader].inputs[link.input].is_controlled
        found.append(LinkDepth(link, written, read, CONTROLLED_DEPTH if has_control else read - written + 1))
    return found


def last_edge(design: Design, schedules: list[Schedule], ticks: dict[str, int]) -> int:
    """The edge in which a balanced run without stalls is done at the latest."""
    starts = starts_of(design, schedules)
    return max(start + ticks[schedule.name] + schedule.last + 1 for start, schedule in zip(starts, schedules))
