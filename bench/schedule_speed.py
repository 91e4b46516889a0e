#!/usr/bin/env python3
"""The speed of `best`, which finds the times of a kernel that need the fewest bits, beside LEMON's network simplex and GLPK.

Random kernels of several families are generated (`chain`, `layered`, `grid`, `ladder` and more: see each below), with
latencies of 0 to 9 ticks and widths of 1 to 64 bits, some edges at an offset. A small program over `schedule_flow`
(bench/schedule_speed.program) is proved and built in a folder of its own, and run on the kernel; so are a program over LEMON
(bench/schedule_speed.cpp, where g++ and liblemon-dev are installed) and `glpsol` (where glpk-utils is), on the same numbers.
The times must be legal, and all must find the same bits. The times of the first two are those of the search alone, the middle one
of nine runs of each, which are run in turn; that of `glpsol` is the one that it says, of one run. Beside each time of `best` stands
how many times LEMON's it is.

    bench/schedule_speed.py [NODES [SEED [FAMILY ..]]]
"""
import math
import pathlib
import random
import re
import shutil
import statistics
import subprocess
import sys
import tempfile

import library_program

TOP = pathlib.Path(__file__).resolve().parent.parent
BENCH = TOP / "bench"
BELOW = ["mx_base", "cycle_find", "schedule_problem", "dual_check", "schedule_flow"]
SIZES = [1024, 4096]
REACH = 64  # how far back a node reads
RUNS = 9


class Kernel:
    """Nodes with latencies and widths, and edges (producer, consumer, latency, offset)."""

    def __init__(self, nodes, seed, widest=64):
        self.chance = random.Random(seed)
        self.nodes = nodes
        self.latency = [self.chance.randrange(10) for _ in range(nodes)]
        self.width = [self.chance.randrange(1, widest + 1) for _ in range(nodes)]
        self.edges = []

    def edge(self, producer, consumer, offset=None):
        """A quarter of the edges has an offset, where none is given."""
        if offset is None:
            offset = self.chance.randrange(-100, 101) if self.chance.randrange(4) == 0 else 0
        self.edges.append((producer, consumer, self.latency[producer], offset))

    def producers(self):
        """Each node that is read, with its width and one of its readers."""
        last = {producer: consumer for producer, consumer, _, _ in self.edges}
        return [(node, self.width[node], last[node]) for node in sorted(last)]

    def base(self):
        return sum(width * self.latency[node] for node, width, _ in self.producers())


def chain(nodes, seed):
    """Each node reads the one before it."""
    made = Kernel(nodes, seed)
    for node in range(1, nodes):
        made.edge(node - 1, node)
    return made


def layered(nodes, seed):
    """Layers of 64 nodes; some five edges a node, each from the layer before."""
    made = Kernel(nodes, seed)
    for number in range(nodes * 625 // 128):
        consumer = 64 + number if number < nodes - 64 else made.chance.randrange(64, nodes)
        made.edge((consumer // 64 - 1) * 64 + made.chance.randrange(64), consumer)
    return made


def grid(nodes, seed):
    """Each node of a square reads the ones above it and left of it."""
    side = math.isqrt(nodes)
    made = Kernel(side * side, seed)
    for node in range(side * side):
        if node >= side:
            made.edge(node - side, node)
        if node % side:
            made.edge(node - 1, node)
    return made


def ladder(nodes, seed):
    """Two chains, and edges across, of widths up to 128 and offsets up to 2^20."""
    made = Kernel(nodes, seed, widest=128)
    for node in range(nodes):
        if node >= 2:
            made.edge(node - 2, node, made.chance.randrange(-(1 << 20), (1 << 20) + 1))
        if node % 2:
            made.edge(node - 1, node, made.chance.randrange(-(1 << 20), (1 << 20) + 1))
    return made


def near(nodes, seed):
    """Each node reads nodes not far before it."""
    made = Kernel(nodes, seed)
    for number in range(nodes * 5 // 2):
        consumer = number + 1 if number < nodes - 1 else made.chance.randrange(1, nodes)
        made.edge(made.chance.randrange(max(0, consumer - REACH), consumer), consumer)
    return made


def anywhere(nodes, seed):
    """Each node reads nodes anywhere before it, some five edges a node."""
    made = Kernel(nodes, seed)
    for number in range(nodes * 625 // 128):
        consumer = number + 1 if number < nodes - 1 else made.chance.randrange(1, nodes)
        made.edge(made.chance.randrange(consumer), consumer)
    return made


def mirror(nodes, seed):
    """A chain whose first nodes are read again by its last ones, in turn."""
    made = Kernel(nodes, seed)
    made.width = [1 + min(node, nodes - 1 - node) % 128 for node in range(nodes)]
    for node in range(1, nodes):
        made.edge(node - 1, node, 0)
    for node in range(nodes // 2 - 1):
        made.edge(node, nodes - 1 - node, 0)
    return made


def skips(nodes, seed):
    """A chain in which nodes also read ones that stand powers of two before them."""
    made = Kernel(nodes, seed)
    for node in range(1, nodes):
        made.edge(node - 1, node, 0)
        back = 1 << node % 12
        if node > back:
            made.edge(node - 1 - back, node)
    return made


def backwards(nodes, seed):
    """A chain whose edges stand in the list from its end on."""
    made = chain(nodes, seed)
    made.edges.reverse()
    return made


FAMILIES = [chain, layered, grid, ladder, near, anywhere, mirror, skips, backwards]


def written(nodes, edges, producers, base):
    lines = [f"{nodes} {base} {len(edges)}"]
    lines += [" ".join(map(str, numbers)) for numbers in edges + producers]
    return "\n".join(lines) + "\n"


def built(work):
    """The program over `schedule_flow`, proved and built."""
    uses = "anyhow cycle_find dual_check mx_base schedule_flow schedule_problem"
    problems = TOP / "crates/schedule_flow_tests/src/problems.rt"
    return library_program.built(work, "schedule_speed", BELOW, uses, [problems])


def run_ours(program, numbers, nodes, edges, producers, base):
    """The bits, and the seconds."""
    said = subprocess.run([str(program)], input=numbers, capture_output=True, text=True, check=True).stdout.split()
    microseconds, *times = map(int, said)
    for producer, consumer, latency, offset in edges:
        assert times[consumer] - times[producer] >= latency + offset, "times that aren't legal"
        assert times[nodes + producer] - times[consumer] >= -offset, "times that aren't legal"
    bits = sum(width * (times[nodes + node] - times[node]) for node, width, _ in producers) - base
    return bits, microseconds / 1e6


def built_lemon(work):
    """The program over LEMON, or None where it can't be built here."""
    program = work / "lemon"
    words = ["g++", "-O3", "-o", str(program), str(BENCH / "schedule_speed.cpp")]
    if shutil.which("g++") is None or subprocess.run(words, capture_output=True).returncode:
        print("LEMON is not installed here, passed over")
        return None
    return program


def run_lemon(program, numbers):
    """The bits and the seconds."""
    said = subprocess.run([str(program)], input=numbers, capture_output=True, text=True, check=True).stdout
    bits, microseconds = map(int, said.split())
    return bits, microseconds / 1e6


def run_glpk(work, nodes, edges, producers, base):
    """The bits and the seconds, or None where GLPK isn't installed."""
    if shutil.which("glpsol") is None:
        print("GLPK is not installed here, passed over")
        return None
    lines = ["Minimize", "bits:"]
    lines += [f" + {width} t{nodes + node} - {width} t{node}" for node, width, _ in producers]
    lines.append("Subject To")
    for producer, consumer, latency, offset in edges:
        lines.append(f" t{consumer} - t{producer} >= {latency + offset}")
        lines.append(f" t{nodes + producer} - t{consumer} >= {-offset}")
    (work / "kernel.lp").write_text("\n".join(lines) + "\nEnd\n")
    said = subprocess.run(["glpsol", "--lp", "kernel.lp", "-o", "answer"], cwd=work, capture_output=True, text=True, check=True).stdout
    bits = int(re.search(r"Objective: +bits = (-?\d+)", (work / "answer").read_text())[1]) - base
    seconds = float(re.search(r"Time used: +([\d.]+) secs", said)[1])
    print(f"glpsol: {bits} bits, {seconds:.1f} s")
    return bits, seconds


def compare(work, program, lemon, made):
    """Whether all find the same bits."""
    nodes, edges, producers, base = made.nodes, made.edges, made.producers(), made.base()
    numbers = written(nodes, edges, producers, base)
    ours, theirs = [], []
    for _ in range(RUNS):
        ours.append(run_ours(program, numbers, nodes, edges, producers, base))
        if lemon is not None:
            theirs.append(run_lemon(lemon, numbers))
    time = statistics.median(seconds for _, seconds in ours)
    print(f"best: {ours[0][0]} bits, {time:.4f} s")
    if theirs:
        other = statistics.median(seconds for _, seconds in theirs)
        print(f"LEMON's network simplex: {theirs[0][0]} bits, {other:.4f} s; best takes {time / max(other, 1e-6):.1f} times as long")
    glpk = run_glpk(work, nodes, edges, producers, base)
    return len({bits for bits, _ in filter(None, [*ours, *theirs, glpk])}) == 1


def main():
    sizes = [int(sys.argv[1])] if len(sys.argv) > 1 else SIZES
    seed = int(sys.argv[2]) if len(sys.argv) > 2 else 1
    families = [family for family in FAMILIES if not sys.argv[3:] or family.__name__ in sys.argv[3:]]
    good = True
    with tempfile.TemporaryDirectory() as folder:
        work = pathlib.Path(folder)
        program, lemon = built(work), built_lemon(work)
        for nodes in sizes:
            for family in families:
                made = family(nodes, seed)
                print(f"{family.__name__}, {made.nodes} nodes, {len(made.edges)} edges: a problem of {2 * made.nodes} nodes and {2 * len(made.edges)} arcs")
                if not compare(work, program, lemon, made):
                    print("NOT the same bits")
                    good = False
    return 0 if good else 1


if __name__ == "__main__":
    sys.exit(main())
