"""What docs/REPORTS.md says of reports: their text, one of a kernel, and what `check` says of one.

This is written from that page and docs/FORMATS.md, and not from the program. The edges and the
latencies of a kernel are those of bench/schedule_rules.py, and its calls those that
bench/building_run.py gives.
"""
import re
from dataclasses import dataclass, field

from running import Refusal
from schedule_rules import Flow, Kernel, longest

FIRST = re.compile(rb"maxjc-report 1")
COUNT = rb"(0|[1-9][0-9]*)"
NAME = rb"([A-Za-z][A-Za-z0-9_]*)"
HEAD = re.compile(rb"kernel %b nodes %b edges %b bits %b|end" % (NAME, COUNT, COUNT, COUNT))
TIME = re.compile(rb"time (0|-?[1-9][0-9]*)")
FLOW = re.compile(rb"flow " + COUNT)
LATEST = 2**46  # the last time that a schedule has
FARTHEST = 2**60  # the last one that a report can say, either way


@dataclass
class Part:
    """What a report says of a kernel."""

    name: str
    nodes: int
    edges: int
    bits: int
    times: list = field(default_factory=list)
    flow: list = field(default_factory=list)

    def lines(self):
        head = f"kernel {self.name} nodes {self.nodes} edges {self.edges} bits {self.bits}"
        times = [f"time {time}" for time in self.times]
        return [head, *times, *(f"flow {amount}" for amount in self.flow)]


def text_of(parts):
    """The text of the report of these parts."""
    lines = ["maxjc-report 1", *(line for part in parts for line in part.lines()), "end"]
    return "".join(line + "\n" for line in lines).encode()


class Reader:
    """The lines of a text, one after another, each with its end."""

    def __init__(self, text):
        *self.lines, self.rest = text.split(b"\n")
        self.number = 0

    def next(self, form):
        """What the next line has in the places of a form."""
        match = self.number < len(self.lines) and form.fullmatch(self.lines[self.number])
        self.number += 1
        self.refuse_unless(match)
        return match.groups()

    def number_of(self, form, limit):
        """The number in the one place of the next line, of a size below the limit."""
        number = int(self.next(form)[0])
        self.refuse_unless(abs(number) < limit)
        return number

    def refuse_unless(self, right):
        if not right:
            raise Refusal("Q1", self.number)

    def end(self):
        """Nothing stands behind the last line."""
        self.number += 1
        self.refuse_unless(self.number > len(self.lines) and not self.rest)


def read(text):
    """The parts of the report that the text is."""
    reader, parts = Reader(text), []
    reader.next(FIRST)
    while True:
        name, *counts = reader.next(HEAD)
        if name is None:
            reader.end()
            return parts
        nodes, edges, bits = map(int, counts)
        reader.refuse_unless(nodes < 2**32 and edges < 2**32 and bits < 2**63)
        part = Part(name.decode(), nodes, edges, bits)
        part.times = [reader.number_of(TIME, FARTHEST + 1) for _ in range(nodes)]
        part.flow = [reader.number_of(FLOW, 2**63) for _ in range(2 * edges)]
        parts.append(part)


class Problem:
    """The problem of a kernel's schedules. Of `count` nodes, node `u` has its time at `u`, and at
    `count + u` stands the time up to which its words are kept. Arcs are (start, end, need), two for
    each edge."""

    def __init__(self, name, calls, table):
        self.name, self.kernel = name, Kernel(calls)
        self.count = len(self.kernel.kinds)
        self.ticks = [self.kernel.latency(node, table)[0] for node in range(self.count)]
        self.arcs, self.surplus, self.base = [], [0] * (2 * self.count), 0
        for start, end, ahead in self.kernel.edges:
            self.arcs.append((start, end, self.ticks[start] + ahead))
            self.arcs.append((end, self.count + start, -ahead))
        for node in {edge[0] for edge in self.kernel.edges}:
            self.surplus[node] += self.kernel.widths[node]
            self.surplus[self.count + node] -= self.kernel.widths[node]
            self.base += self.kernel.widths[node] * self.ticks[node]

    def whole(self, times):
        """These times, and behind them those up to which words are kept: the node's own where
        nothing reads it."""
        kept = [[] for _ in range(self.count)]
        for start, end, ahead in self.kernel.edges:
            kept[start].append(times[end] - ahead)
        return times + [max(reads, default=time) for reads, time in zip(kept, times)]

    def cost(self, times):
        """The bits that FIFOs hold at these times."""
        sums = zip(self.surplus, self.whole(times))
        return -sum(amount * time for amount, time in sums) - self.base

    def worth(self, flow):
        return sum(amount * need for amount, (_, _, need) in zip(flow, self.arcs)) - self.base

    def broken_arc(self, times):
        """The first arc that times break, or None."""
        whole = self.whole(times)
        for number, (start, end, need) in enumerate(self.arcs):
            if whole[end] - whole[start] < need:
                return number
        return None

    def unbalanced(self, flow):
        """The first node that sends out another surplus than its own, or None."""
        left = list(self.surplus)
        for amount, (start, end, _) in zip(flow, self.arcs, strict=True):
            left[start] -= amount
            left[end] += amount
        return next((node for node, amount in enumerate(left) if amount), None)

    def least_part(self):
        """The part of a report with the earliest times of fewest bits; there are legal times."""
        flow = Flow(2 * self.count, self.arcs, list(self.surplus))
        bits = flow.worth() - self.base
        full = [arc for amount, arc in zip(flow.amounts, self.arcs) if amount]
        no_later = [(end, start, -need) for start, end, need in full]
        times = longest(2 * self.count, self.arcs + no_later)[: self.count]
        return Part(self.name, self.count, len(self.kernel.edges), bits, times, flow.amounts)

    def other_line(self, part):
        """The first line of a part, from 0, that is none of the kernel's, or None."""
        counts = (self.name, self.count, len(self.kernel.edges))
        if (part.name, part.nodes, part.edges) != counts or part.bits != self.cost(part.times):
            return 0
        late = (node for node, time in enumerate(part.times) if not 0 <= time <= LATEST)
        return next((1 + node for node in late), None)

    def test(self, part):
        """Refuses a part of the kernel that doesn't show that its bits are the fewest."""
        arc = self.broken_arc(part.times)
        if arc is not None:
            raise Refusal("Q3", self.name, arc)
        node = self.unbalanced(part.flow)
        if node is not None:
            raise Refusal("Q4", self.name, node)
        cost, worth = self.cost(part.times), self.worth(part.flow)
        if cost != worth:
            raise Refusal("Q5", self.name, cost, worth)


def test_lines(problems, parts):
    """Refuses parts that aren't those of the kernels, one for one."""
    first = 2
    for problem, part in zip(problems, parts):
        other = problem.other_line(part)
        if other is not None:
            raise Refusal("Q2", first + other)
        first += len(part.lines())
    if len(problems) != len(parts):
        raise Refusal("Q2", first)


def judged(problems, text):
    """The status of `check` and what it says of the text of a report on these kernels."""
    try:
        parts = read(text)
        test_lines(problems, parts)
        for problem, part in zip(problems, parts):
            problem.test(part)
    except Refusal as refusal:
        return 1, refusal.line + "\n"
    return 0, "".join(f"kernel {part.name} least {part.bits}\n" for part in parts)
