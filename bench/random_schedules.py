#!/usr/bin/env python3
"""Compares `best`, which finds the times of a kernel that need the fewest bits, with another solver on random kernels.

The kernels are small: nodes that read each other in all directions, also in cycles, at offsets both ways, with latencies of 0 to 9
ticks and widths of 1 to 64 bits; of some there are no times. A small program over `schedule_flow`
(bench/random_schedules.program) is proved and built in a folder of its own and run on all of them at once. Its times are to be
legal and to need as few bits as the other solver finds, and no earlier ones may need no more; its flow is to be worth what they
cost; and where it shows a closed walk, that walk is to allow no times, and the other solver is to find none.

The other solver is LEMON's network simplex (bench/random_schedules.cpp, where g++ and liblemon-dev are installed), else GLPK
(where glpk-utils is), else the one of this page, which cancels cycles.

    bench/random_schedules.py [COUNT [SEED [lemon|glpk|plain]]]
"""
import pathlib
import random
import re
import shutil
import subprocess
import sys
import tempfile
from collections import Counter
from dataclasses import dataclass

import library_program

BENCH = pathlib.Path(__file__).resolve().parent
BELOW = ["mx_base", "cycle_find", "schedule_problem", "dual_check", "schedule_flow"]
PROBLEMS = library_program.TOP / "crates/schedule_flow_tests/src/problems.rt"
MOST_NODES = 14
SHARE = 10  # one kernel in so many, at least, has times, and one has none


@dataclass
class Kernel:
    """A kernel: how many nodes there are, edges (producer, consumer, latency, offset), and producers (node, width, consumer)."""

    nodes: int
    edges: list
    producers: list

    def base(self):
        latency = {edge[0]: edge[2] for edge in self.edges}
        return sum(width * latency[node] for node, width, _ in self.producers)

    def arcs(self):
        """Arcs (from, to, need), two an edge: node `nodes + u` is the last tick in which the word of node `u` is read."""
        arcs = []
        for producer, consumer, latency, offset in self.edges:
            arcs += [(producer, consumer, latency + offset), (consumer, self.nodes + producer, -offset)]
        return arcs

    def line(self):
        numbers = [self.nodes, self.base(), len(self.edges)]
        return " ".join(map(str, numbers + [number for part in self.edges + self.producers for number in part]))

    def bits(self, times):
        return sum(width * (times[self.nodes + node] - times[node]) for node, width, _ in self.producers) - self.base()


def random_kernel(chance):
    nodes = chance.randrange(1, MOST_NODES + 1)
    latency = [chance.choice([0, 0, chance.randrange(10)]) for _ in range(nodes)]
    back = chance.choice([0, 0.1, 0.3, 0.5])  # how many edges go back
    edges, consumers = [], {}
    for _ in range(chance.randrange(nodes, 3 * nodes + 1)):
        ends = sorted(chance.randrange(nodes) for _ in range(2))
        if chance.random() < back:
            producer, consumer = reversed(ends)
            offset = -chance.randrange(40)
        elif ends[0] < ends[1]:
            producer, consumer = ends
            offset = chance.choice([0, chance.randrange(-30, 31)])
        else:
            continue
        edges.append((producer, consumer, latency[producer], offset))
        consumers.setdefault(producer, []).append(consumer)
    producers = [(node, chance.randrange(1, 65), chance.choice(consumers[node])) for node in sorted(consumers)]
    return Kernel(nodes, edges, producers)


def least(count, arcs):
    """The least numbers from 0 that stand at least so far apart as the arcs ask, or None, and the numbers of the arcs of a closed
    walk of positive sum, or None: the method of Bellman and Ford."""
    times, came_by = [0] * count, [None] * count
    for _ in range(count + 1):
        raised = None
        for number, (start, end, need) in enumerate(arcs):
            if times[start] + need > times[end]:
                times[end], came_by[end], raised = times[start] + need, number, end
        if raised is None:
            return times, None
    node = raised
    for _ in range(count):
        node = arcs[came_by[node]][0]
    walk, first = [], node
    while not walk or node != first:
        walk.append(came_by[node])
        node = arcs[came_by[node]][0]
    return None, walk[::-1]


def plain_bits(kernel):
    """The fewest bits, or None where there are no times: cycles of positive sum are cancelled in the flow that sends each width
    along an edge and back."""
    count, arcs = 2 * kernel.nodes, kernel.arcs()
    if least(count, arcs)[1]:
        return None
    flow = [0] * len(arcs)
    for node, width, consumer in kernel.producers:
        edge = next(number for number, edge in enumerate(kernel.edges) if edge[:2] == (node, consumer))
        flow[2 * edge] += width
        flow[2 * edge + 1] += width
    while True:
        used = [number for number, amount in enumerate(flow) if amount]
        backwards = [(arcs[number][1], arcs[number][0], -arcs[number][2]) for number in used]
        walk = least(count, arcs + backwards)[1]
        if walk is None:
            return sum(amount * need for amount, (_, _, need) in zip(flow, arcs)) - kernel.base()
        undone = [used[number - len(arcs)] for number in walk if number >= len(arcs)]
        amount = min(flow[number] for number in undone)
        for number in walk:
            if number < len(arcs):
                flow[number] += amount
        for number in undone:
            flow[number] -= amount


def plain(kernels, _work):
    return [plain_bits(kernel) for kernel in kernels]


def lemon(kernels, work):
    program = work / "lemon"
    if subprocess.run(["g++", "-o", str(program), str(BENCH / "random_schedules.cpp")], capture_output=True).returncode:
        return None
    lines = "".join(kernel.line() + "\n" for kernel in kernels)
    said = subprocess.run([str(program)], input=lines, capture_output=True, text=True, check=True).stdout
    return [None if line == "none" else int(line) for line in said.splitlines()]


def glpk_bits(kernel, work):
    if any(start == end and need > 0 for start, end, need in kernel.arcs()):
        return None
    weights = Counter({"t0": 0})
    for node, width, _ in kernel.producers:
        weights[f"t{kernel.nodes + node}"] += width
        weights[f"t{node}"] -= width
    lines = ["Minimize", "bits:"] + [f" {weight:+} {name}" for name, weight in weights.items()] + ["Subject To"]
    lines += [f" t{end} - t{start} >= {need}" for start, end, need in kernel.arcs() if start != end]
    (work / "kernel.lp").write_text("\n".join(lines + [" t0 >= 0", "End", ""]))
    said = subprocess.run(["glpsol", "--lp", "kernel.lp", "-o", "answer"], cwd=work, capture_output=True, text=True, check=True).stdout
    if "NO PRIMAL FEASIBLE SOLUTION" in said:
        return None
    return round(float(re.search(r"Objective: +bits = (\S+)", (work / "answer").read_text())[1])) - kernel.base()


def glpk(kernels, work):
    return [glpk_bits(kernel, work) for kernel in kernels]


def fewest_bits(kernels, work, name):
    """The name of the other solver, and what it finds."""
    if name in (None, "lemon") and shutil.which("g++"):
        found = lemon(kernels, work)
        if found is not None:
            return "LEMON's network simplex", found
    if name in (None, "glpk") and shutil.which("glpsol"):
        return "glpsol", glpk(kernels, work)
    return "cancelled cycles", plain(kernels, work)


def wrong_times(kernel, times, flow, bits):
    """What is wrong with times and a flow, or None."""
    arcs = kernel.arcs()
    if bits is None:
        return "times where there are none"
    if len(times) != 2 * kernel.nodes or any(times[end] - times[start] < need for start, end, need in arcs):
        return "times that aren't legal"
    if kernel.bits(times) != bits:
        return f"{kernel.bits(times)} bits in place of {bits}"
    surplus = [0] * len(times)
    for node, width, _ in kernel.producers:
        surplus[node] += width
        surplus[kernel.nodes + node] -= width
    for amount, (start, end, _) in zip(flow, arcs, strict=True):
        surplus[start] -= amount
        surplus[end] += amount
    if any(surplus) or min(flow, default=0) < 0:
        return "a flow that doesn't balance"
    if sum(amount * need for amount, (_, _, need) in zip(flow, arcs)) - kernel.base() != bits:
        return "a flow of another worth"
    kept = [(end, start, -need) for amount, (start, end, need) in zip(flow, arcs) if amount]
    if least(len(times), arcs + kept)[0] != times:
        return "times that aren't the earliest"
    return None


def wrong_walk(kernel, walk, bits):
    """What is wrong with a closed walk of arcs, or None."""
    arcs = [kernel.arcs()[number] for number in walk]
    if bits is not None:
        return f"a closed walk where {bits} bits are enough"
    if not arcs or any(arc[1] != after[0] for arc, after in zip(arcs, arcs[1:] + arcs[:1])):
        return "a walk that isn't closed"
    if sum(need for _, _, need in arcs) <= 0:
        return "a walk that allows times"
    return None


def wrong(kernel, said, bits):
    """What is wrong with what the program says of a kernel, or None."""
    word, *numbers = next(said).split()
    if word == "cycle":
        return wrong_walk(kernel, list(map(int, numbers)), bits)
    flow = next(said).split()[1:]
    return wrong_times(kernel, list(map(int, numbers)), list(map(int, flow)), bits)


def main():
    words = sys.argv[1:]
    count = int(words[0]) if words else 1000
    chance = random.Random(int(words[1]) if len(words) > 1 else 1)
    if not library_program.are_built(BELOW):
        print("the libraries aren't built here, passed over")
        return 0
    kernels = [random_kernel(chance) for _ in range(count)]
    with tempfile.TemporaryDirectory() as folder:
        work = pathlib.Path(folder)
        solver, found = fewest_bits(kernels, work, words[2] if len(words) > 2 else None)
        uses = "anyhow cycle_find dual_check mx_base schedule_flow schedule_problem"
        program = library_program.built(work, "random_schedules", BELOW, uses, [PROBLEMS])
        lines = "".join(kernel.line() + "\n" for kernel in kernels)
        said = iter(subprocess.run([str(program)], input=lines, capture_output=True, text=True, check=True).stdout.splitlines())
    bad = 0
    for kernel, bits in zip(kernels, found, strict=True):
        fault = wrong(kernel, said, bits)
        if fault:
            bad += 1
            print(f"{fault}: {kernel.line()}")
    without = found.count(None)
    print(f"{count} kernels, {without} of them without times, beside {solver}: {bad} answers differ")
    if min(without, count - without) * SHARE < count:
        print("too few kernels have times, or too few have none")
        bad += 1
    return 1 if bad else 0


if __name__ == "__main__":
    sys.exit(main())
