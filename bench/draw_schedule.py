#!/usr/bin/env python3
"""Draws a kernel's schedule, as its report says it, as a picture in SVG.

Each node has a row with its number, what it is, and the width of its words. A bar stands where its
first word is made: from its time over its latency. Behind the bar the word waits in a FIFO until
its last reader has taken it; a point stands where one takes it, and a thin line leads to the
reader. It has the reader's offset, where there is one: the reader takes the word in another tick of
its own than its first. A reader that takes a word before it is there is drawn in red. On the right
are the bits of the FIFOs. Nodes that take no part in a schedule (offsets, constants and scalars)
are grey. Where nothing happens for long, the axis is cut.

SRC, TABLE and REPORT are those of `maxjc check`; the first kernel is drawn where none is named.

    bench/draw_schedule.py SRC TABLE REPORT [KERNEL] >schedule.svg
"""
import json
import operator
import pathlib
import sys

import building_run
import report_rules
from running import Refusal

ROW, TOP_SPACE, EDGE = 24, 64, 16  # heights of a row and of the head, and the border
LABEL, WIDTH_COLUMN, BITS_COLUMN = 150, 60, 120
BAR, MARK = 12, 4  # the height of a bar, and the width of one that takes no tick
WIDEST, NARROWEST, PLOT = 56, 10, 640  # of a tick the most and the least, and of all of them
LONGEST_GAP, CUT_GAP = 40, 6  # ticks in which nothing happens, and what is drawn of more
LEAST_STEP = 30  # between numbers of the axis
LEAST_WIDTH = 480  # of a picture
DOWN = 0.35  # where on a line its offset stands
SHARES = [(1, 3, 3, 1)[part] * DOWN**part * (1 - DOWN) ** (3 - part) for part in range(4)]
INK, GREY, RULE, BAND = "#24292f", "#8c959f", "#e4e8ec", "#f6f8fa"
BOLD = ' font-weight="bold"'
MADE, KEPT, READ, WRONG = "#2f6db3", "#e08a1e", "#7a8794", "#d1242f"


class Axis:
    """Where ticks stand: in proportion, but that long gaps in which nothing happens are cut."""

    def __init__(self, ticks):
        self.ticks = sorted({0, *ticks})
        self.steps, self.cuts = [0], []
        for before, tick in zip(self.ticks, self.ticks[1:]):
            is_cut = tick - before > LONGEST_GAP
            if is_cut:
                self.cuts.append((before, tick))
            self.steps.append(self.steps[-1] + (CUT_GAP if is_cut else tick - before))
        length = max(1, self.steps[-1])
        self.unit = min(WIDEST, max(NARROWEST, PLOT / length))
        self.left = EDGE + LABEL + WIDTH_COLUMN
        self.places = dict(zip(self.ticks, self.steps))
        self.width = length * self.unit + 2 * MARK

    def place(self, tick):
        return self.left + MARK + self.places[tick] * self.unit

    def ruled(self):
        """The ticks with a rule: all of them, but in the gaps that are cut."""
        gaps = zip(self.ticks, self.ticks[1:])
        filled = [range(a, b) for a, b in gaps if (a, b) not in self.cuts]
        return sorted({*self.ticks, *(tick for part in filled for tick in part)})

    def rule_place(self, tick):
        before = max(known for known in self.ticks if known <= tick)
        return self.place(before) + (tick - before) * self.unit

    def numbered(self):
        """The ticks with a number, far enough from one another."""
        last = None
        for tick in self.ruled():
            if last is None or self.rule_place(tick) - self.rule_place(last) >= LEAST_STEP:
                last = tick
                yield tick


class Picture:
    """The lines of a picture."""

    def __init__(self):
        self.lines = []

    def text(self, x, y, words, color=INK, anchor="start", size=12, more=""):
        style = f'font-size="{size}" fill="{color}" text-anchor="{anchor}"'
        self.lines.append(f'<text x="{x:g}" y="{y:g}" {style}{more}>{words}</text>')

    def box(self, x, y, width, height, color, more=""):
        place = f'x="{x:g}" y="{y:g}" width="{width:g}" height="{height:g}"'
        self.lines.append(f'<rect {place} fill="{color}"{more}/>')

    def path(self, way, color, width, more=""):
        style = f'fill="none" stroke="{color}" stroke-width="{width:g}"'
        self.lines.append(f'<path d="{way}" {style}{more}/>')

    def point(self, x, y, color):
        self.lines.append(f'<circle cx="{x:g}" cy="{y:g}" r="3" fill="{color}"/>')

    def whole(self, width, height):
        head = f'<svg xmlns="http://www.w3.org/2000/svg" width="{width:g}" height="{height:g}"'
        head += f' viewBox="0 0 {width:g} {height:g}" font-family="Helvetica, Arial, sans-serif">'
        return "\n".join([head, *self.lines, "</svg>", ""])


def signed(number):
    return f"{number:+d}".replace("-", "\N{MINUS SIGN}")


def label_of(kind, values):
    """What a node is, in a few words."""
    if kind in ("input", "output", "scalar", "constant"):
        return f"{kind} {values[0]}"
    if kind == "offset":
        return f"offset {signed(values[1])}"
    return values[0] if kind == "operation" else kind


class Drawing:
    """The picture of a part of a report on a kernel."""

    def __init__(self, problem, part):
        self.problem, self.kernel, self.part = problem, problem.kernel, part
        self.ends = [time + ticks for time, ticks in zip(part.times, problem.ticks)]
        self.reads = [part.times[end] - ahead for _, end, ahead in self.kernel.edges]
        self.kept = problem.whole(part.times)[problem.count :]
        self.reads_of = {}
        for (start, _, _), read in zip(self.kernel.edges, self.reads):
            self.reads_of.setdefault(start, set()).add(read)
        self.timed = {*self.reads_of, *(end for _, end, _ in self.kernel.edges)}
        shown = [ends[node] for node in self.timed for ends in (part.times, self.ends)]
        self.axis = Axis([*shown, *self.reads])
        self.picture = Picture()

    def row(self, node):
        """The middle of a node's row."""
        return TOP_SPACE + ROW * node + ROW / 2

    def drawn(self):
        width = self.axis.left + self.axis.width + BITS_COLUMN + EDGE
        width = max(LEAST_WIDTH, width)
        self.picture.box(0, 0, width, self.row(self.problem.count + 3), "white")
        self.draw_head(width)
        self.draw_rows(width)
        self.draw_axis()
        edges = list(zip(self.kernel.edges, self.reads))
        for edge, read in edges:
            self.draw_edge(edge, read)
        for node in sorted(self.timed):
            self.draw_node(node)
        for edge, read in edges:
            if edge[2]:
                self.draw_offset(edge, read)
        self.draw_cuts()
        self.draw_foot(width)
        return self.picture.whole(width, self.row(self.problem.count + 3))

    def draw_head(self, width):
        self.picture.text(EDGE, 26, f"kernel {self.part.name}", size=15, more=BOLD)
        self.picture.text(self.axis.left, TOP_SPACE - 24, "tick", GREY, size=11)
        self.picture.text(width - EDGE, TOP_SPACE - 8, "FIFO bits", GREY, "end", size=11)

    def draw_rows(self, width):
        for node, (kind, values) in enumerate(zip(self.kernel.kinds, self.kernel.values)):
            y, color = self.row(node), INK if node in self.timed else GREY
            if node % 2 == 0:
                self.picture.box(EDGE / 2, y - ROW / 2, width - EDGE, ROW, BAND)
            self.picture.text(EDGE + 24, y + 4, node, GREY, "end", size=11)
            self.picture.text(EDGE + 32, y + 4, label_of(kind, values), color)
            bits = f"{self.kernel.widths[node]} bit{'s' * (self.kernel.widths[node] != 1)}"
            self.picture.text(self.axis.left - 12, y + 4, bits, GREY, "end", size=11)
            self.draw_bits(node, width, y)

    def draw_bits(self, node, width, y):
        """The ticks that words wait, times their bits."""
        waits = self.kept[node] - self.ends[node]
        if node in self.reads_of and waits:
            bits = self.kernel.widths[node]
            told = f"{waits} \N{MULTIPLICATION SIGN} {bits} = {waits * bits}"
            self.picture.text(width - EDGE, y + 4, told, INK, "end")

    def draw_axis(self):
        bottom = self.row(self.problem.count - 1) + ROW / 2
        for tick in self.axis.ruled():
            x = self.axis.rule_place(tick)
            self.picture.path(f"M{x:g} {TOP_SPACE}V{bottom:g}", RULE, 1)
        for tick in self.axis.numbered():
            x = self.axis.rule_place(tick)
            self.picture.text(x, TOP_SPACE - 8, tick, GREY, "middle", size=11)

    def curve(self, edge, read):
        """From where a word is taken to the bar of the reader: the ends, and where it bends."""
        start, end, _ = edge
        x, y = self.axis.place(read), self.row(start)
        far, below = self.axis.place(self.part.times[end]), self.row(end)
        bend, drop = 10 + 2 * min(12, abs(end - start)), (below - y) / 4
        return [(x, y), (x + bend, y + drop), (far - bend, below - drop), (far, below)]

    def draw_edge(self, edge, read):
        (x, y), *behind = self.curve(edge, read)
        way = f"M{x:g} {y:g}C" + " ".join(f"{x:g} {y:g}" for x, y in behind)
        self.picture.path(way, READ if read >= self.ends[edge[0]] else WRONG, 1)

    def draw_offset(self, edge, read):
        """The offset of an edge, some way down its line."""
        x, y = (sum(map(operator.mul, SHARES, places)) for places in zip(*self.curve(edge, read)))
        halo = ' stroke="white" stroke-width="3" paint-order="stroke"'
        self.picture.text(x, y + 4, signed(edge[2]), INK, "middle", 10, halo)

    def draw_node(self, node):
        """A node's bar, and the ticks in which its words wait."""
        first, end, y = self.axis.place(self.part.times[node]), self.ends[node], self.row(node)
        last = self.axis.place(end)
        if node in self.reads_of:
            color = KEPT if self.kept[node] >= end else WRONG
            self.picture.path(f"M{last:g} {y:g}H{self.axis.place(self.kept[node]):g}", color, 2.5)
        if last == first:
            first -= MARK / 2
        self.picture.box(first, y - BAR / 2, max(last - first, MARK), BAR, MADE, ' rx="2"')
        for read in sorted(self.reads_of.get(node, {end}) - {end}):
            self.picture.point(self.axis.place(read), y, KEPT if read > end else WRONG)

    def draw_cuts(self):
        bottom = self.row(self.problem.count - 1) + ROW / 2
        for before, tick in self.axis.cuts:
            x = (self.axis.place(before) + self.axis.place(tick)) / 2
            way = f"M{x - 4:g} {TOP_SPACE}V{bottom:g}M{x + 4:g} {TOP_SPACE}V{bottom:g}"
            self.picture.path(way, GREY, 1, ' stroke-dasharray="2 4"')

    def draw_foot(self, width):
        """The bits of all FIFOs, and what the marks mean."""
        y, right = self.row(self.problem.count), width - EDGE
        self.picture.path(f"M{right - 80} {y - ROW / 2 + 2:g}h80", GREY, 1)
        self.picture.text(right, y + 6, self.part.bits, INK, "end", more=BOLD)
        x, y = EDGE + 8, y + 1.5 * ROW
        self.picture.box(x, y - BAR / 2, 22, BAR, MADE, ' rx="2"')
        self.picture.text(x + 28, y + 4, "makes its first word", GREY, size=11)
        self.picture.path(f"M{x + 146} {y:g}h20", KEPT, 2.5)
        self.picture.point(x + 166, y, KEPT)
        self.picture.text(x + 174, y + 4, "which waits until it is read", GREY, size=11)
        self.picture.path(f"M{x + 326} {y:g}h22", READ, 1)
        self.picture.text(x + 354, y + 4, "by a reader", GREY, size=11)


def part_of(problem, report):
    """The part of a report that has the kernel's name and counts."""
    for part in report_rules.read(report):
        counts = (part.nodes, part.edges)
        if part.name == problem.name and counts == (problem.count, len(problem.kernel.edges)):
            return part
    sys.exit(f"the report has no part of the kernel {problem.name}")


def problem_of(source, table, name):
    """The problem of the kernel of a name, or of the first kernel of a source."""
    built = building_run.build(source)
    if built.line:
        sys.exit(built.line)
    for kernel, calls in built.kernels:
        if name in (None, kernel):
            return report_rules.Problem(kernel, calls, table)
    sys.exit(f"the source has no kernel {name}")


def main():
    if len(sys.argv) not in (4, 5):
        sys.exit(__doc__.rsplit("\n\n", 1)[1].strip())
    source, table, report = map(pathlib.Path, sys.argv[1:4])
    name = sys.argv[4] if len(sys.argv) == 5 else None
    problem = problem_of(source.read_text(), json.loads(table.read_text()), name)
    try:
        part = part_of(problem, report.read_bytes())
    except Refusal as refusal:
        sys.exit(refusal.line)
    print(Drawing(problem, part).drawn(), end="")


if __name__ == "__main__":
    main()
