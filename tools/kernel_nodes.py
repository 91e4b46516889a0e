#!/usr/bin/env python3
"""The nodes of a source's kernels and the joins of its manager, each with the place in the source that makes it; and what the lines
that name them mean: the loop of C1 and C2, the arc of Q3, a link of `unbalanced` and so on.

    tools/kernel_nodes.py SRC [KERNEL]     prints each node with its number, its kind and its line, and each join

It stands on the evaluator of constructors (bench/building_run.py) and the rules of schedules (bench/schedule_rules.py).
"""
import pathlib
import sys

sys.path.insert(0, str(pathlib.Path(__file__).resolve().parent.parent / "bench"))

import building_run
import schedule_rules
from places import line_of

MOST_SHOWN = 200  # nodes of a line that names many


class NotingRun(building_run.Run):
    """A run that notes where each node, connection, kernel, stream of the CPU and join is made."""

    def __init__(self, class_, kernel_classes=None):
        super().__init__(class_, kernel_classes)
        self.place = class_.place
        self.places, self.connected = [], []
        self.made_at = {"kernels": [], "from_cpu": [], "to_cpu": [], "joins": []}

    def make(self, call, of, is_feed=False):
        self.places.append(sys._getframe(1).f_locals["place"])  # each call of the library has the place of its expression
        return super().make(call, of, is_feed)

    def do_connect(self, node):
        before = len(self.calls)
        super().do_connect(node)
        if len(self.calls) > before:
            self.connected.append((self.calls[-1][1], node.place))
        self.note_made(node.place)

    def on_call(self, node):
        value = super().on_call(node)
        self.note_made(node.place)
        return value

    def note_made(self, place):
        """Notes the place of what a manager has made since."""
        for kind, places in self.made_at.items():
            places += [place] * (len(getattr(self, kind)) - len(places))


class Project:
    """What a source builds, with places."""

    def __init__(self, path):
        self.path = path
        source = pathlib.Path(path).read_bytes().decode("latin-1")
        self.built = building_run.build(source, NotingRun)
        self.names = [name for name, _ in self.built.kernels]
        self.kernels = [Nodes(path, name, run) for (name, _), run in zip(self.built.kernels, self.built.runs)]

    def kernel(self, name):
        """The last kernel of a name: the one that a refusal of its nodes is about."""
        return next(kernel for kernel in reversed(self.kernels) if kernel.name == name)

    def joins(self):
        """(number of the link or None, source end, target end, place) of each join, in the order of the manager's."""
        manager, found, links = self.built.manager, [], 0
        for (left, right), place in zip(manager.joins, manager.made_at["joins"]):
            is_link = left[0] != "CPU" and right[0] != "CPU"
            found.append((links if is_link else None, right, left, place))
            links += is_link
        return found

    def end(self, end):
        """An end of a join as a refusal says it."""
        return end[1] if end[0] == "CPU" else f"{self.built.manager.kernels[end[0]][0]}.{end[1]}"

    def join_line(self, join):
        number, source, target, place = join
        what = f"link {number}" if number is not None else "join"
        return f"  {what}, from {self.end(source)} to {self.end(target)}: {line_of(self.path, place)}"


class Nodes:
    """The nodes of a kernel, with their places."""

    def __init__(self, path, name, run):
        self.path, self.name, self.run = path, name, run
        self.count, self.places = run.nodes, run.places
        self.calls = [call for call in run.calls if call[0] != "connect"]
        self._kernel = None

    @property
    def kernel(self):
        """Its kinds, operands, widths and edges; of a run that ended well."""
        self._kernel = self._kernel or schedule_rules.Kernel(self.run.calls)
        return self._kernel

    def call(self, node):
        return self.calls[node]

    def kind(self, node):
        """What a node is, in words."""
        call = self.call(node)
        if call[0] == "operation":
            return call[1]
        if call[0] == "offset":
            return f"offset {call[2]}"
        return f"{call[0]} {call[1]}" if call[0] in ("input", "output", "scalar") else call[0]

    def line(self, node, more=""):
        """A node with its kind and its line of the source."""
        return f"  node {node}, {self.kind(node)}{more}: {line_of(self.path, self.places[node])}"

    def lines(self, nodes):
        shown = [self.line(node) for node in nodes[:MOST_SHOWN]]
        return shown + [f"  and {len(nodes) - MOST_SHOWN} more"] * (len(nodes) > MOST_SHOWN)

    # loops

    def looked(self, walk):
        """How many ticks each step of a closed walk looks ahead, or None where it isn't one of the kernel's: along the edge that
        asks for most."""
        ahead = {}
        for start, end, offset in self.kernel.edges:
            ahead[start, end] = max(ahead.get((start, end), offset), offset)
        return [ahead.get(step) for step in zip(walk, walk[1:] + walk[:1])]

    def loop_lines(self, walk, table):
        """Each node of a loop, with its ticks and what the step behind it looks back."""
        found = []
        for node, ahead in list(zip(walk, self.looked(walk)))[:MOST_SHOWN]:
            ticks, _ = self.kernel.latency(node, table)
            parts = [f", {counted(ticks)}"] if ticks else []
            if ahead:
                parts.append(f", read {counted(abs(ahead))} {'later' if ahead < 0 else 'ahead'}")
            found.append(self.line(node, "".join(parts)))
        return found + [f"  and {len(walk) - MOST_SHOWN} more"] * (len(walk) > MOST_SHOWN)

    def arithmetic(self, walk, table, latency, back):
        """A loop's sums: what it looks back, and the latencies of its operations."""
        parts = []
        for node in walk:
            ticks, op = self.kernel.latency(node, table)
            if op and (ticks or len(walk) < 8):
                parts.append(f"{op[0]} {ticks}")
        return f"the loop looks back {back}, and its latency is {latency}" + (f": {', '.join(parts)}" if parts else "")


def counted(ticks):
    return "1 tick" if ticks == 1 else f"{ticks} ticks"


def main():
    if len(sys.argv) not in (2, 3):
        sys.exit(__doc__.strip())
    project = Project(sys.argv[1])
    for kernel in project.kernels:
        if kernel.name in sys.argv[2:] or not sys.argv[2:]:
            print(f"kernel {kernel.name}", *(kernel.line(node) for node in range(kernel.count)), sep="\n")
    if project.built.manager and not sys.argv[2:]:
        print("manager", *map(project.join_line, project.joins()), sep="\n")
    if project.built.line:
        sys.exit(project.built.line)


if __name__ == "__main__":
    main()
