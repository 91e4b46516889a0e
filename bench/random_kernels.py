#!/usr/bin/env python3
"""Compares `maxjc compile` and `maxjc simulate` with the stream equations on random kernels.

Each kernel (bench/kernel_maker.py) has some inputs and outputs, with and without controls, operations on words of many types,
offsets both ways, feedback through feeds, counters and chains of them, holds, scalars, and a random latency table. What `compile`
says is to be what bench/schedule_rules.py says: L1, C1, C2, or the fewest bits of FIFOs. Then the text is run by `maxjc
simulate`: without stalls, under a pattern of stalls, and with more or fewer words than the run reads, from random contents. The
words that leave are to be the first of those of the stream equations (bench/stream_equations.py), where an undefined word may be
any; the run is to be done, and all words are to have left, where the words suffice.

Without stalls the number of edges is to be that of docs/HARDWARE.md: with T ticks and S the greatest time of a port by the
report, T + S, and one more where a word is read at position 0, and one more where a word is given at the last position. A word of
tick t of an output of time s has left so many edges after the reset edge: s + t + 2, and one more in that case, and not an
edge before. This is looked at for some words, by runs of so many edges.

The registers and memories of the kernel's module are to have the bits that docs/HARDWARE.md says: those of the FIFOs, the latency
times the width of each node, 48 for the position, the widths of counters, chains and holds, and the pointers of the rings.

A run in which a control or a store is undefined is not guarded: its words are bound by nothing, and it is only to end.

Where Icarus is installed, one of the guarded runs is made by it too, with the same words and the same end, but for kernels with
quotients of words that Icarus can't divide by 1.

    bench/random_kernels.py [COUNT [SEED]]
"""
import json
import random
import shutil
import subprocess
import sys
from collections import Counter
from dataclasses import dataclass

import building_run
import icarus_words
import kernel_maker
import schedule_rules
import stream_equations
import testbench
import trials
from stream_rules import least_bits
from trials import PROGRAM

NAMES = ["K", "Kernel_1", "a", "Sum", "z9_", "M0"]
SLOWER = 40  # times as many edges may a run take where all ports stall in a fourth of them
DEEPEST = 5  # times that a feedback is lengthened
DUE = 2  # words of a run whose edge is looked at
POSITION = 48  # bits
STATES = ("counter", "chain", "hold")
KINDS = {
    "counters": lambda node: node.kind == "counter",
    "chains": lambda node: node.kind == "chain",
    "holds": lambda node: node.kind == "hold",
    "scalars": lambda node: node.kind == "scalar",
    "inputs with controls": lambda node: node.kind == "input" and node.control is not None,
    "outputs with controls": lambda node: node.kind == "output" and node.control is not None,
}


@dataclass
class Case:
    """A kernel with its table: the source, the calls that make it, and the line that is said of it."""

    name: str
    maker: kernel_maker.Maker
    table: dict
    source: str = ""
    calls: list = None
    said: str = ""

    def write(self):
        self.source = self.maker.source(self.name)
        built = building_run.build(self.source)
        if built.line:
            raise ValueError(f"{built.line}:\n{self.source}")
        self.calls = built.kernels[0][1]

    def judged(self):
        return schedule_rules.judged(self.name, self.calls, self.table, self.said)

    def told(self, what):
        return f"{what}\nby {json.dumps(self.table)}:\n{self.source}"


def any_case():
    """A kernel whose feedback looks back far enough, mostly."""
    case = Case(random.choice(NAMES), kernel_maker.any_kernel(), kernel_maker.any_table())
    case.write()
    for _ in range(DEEPEST):
        if not case.maker.loops or case.judged()[0] not in ("C1", "C2"):
            return case
        if random.random() < 0.1:
            break
        for loop in case.maker.loops:
            loop.back = max(1, loop.back * 3 + random.randrange(3))
        case.write()
    return case


class Ports:
    """In which ticks the ports of a kernel are enabled in a run, and at which positions they are due."""

    def __init__(self, nodes, times, streams):
        self.ticks = streams.ticks
        self.inputs, self.outputs, self.times = {}, {}, {}
        for number, node in enumerate(nodes):
            if node.kind in ("input", "output"):
                ticks = [tick for tick in range(self.ticks) if node.control is None or streams.word(node.control, tick) == 1]
                (self.inputs if node.kind == "input" else self.outputs)[node.name] = ticks
                self.times[node.kind, node.name] = times[number]
        self.last = max(self.times.values(), default=0)
        self.waits = any(self.times["input", name] == 0 and ticks[:1] == [0] for name, ticks in self.inputs.items())

    def edges(self):
        """The edges of a run without stalls in which all words are there."""
        end = self.ticks - 1
        gives = any(self.times["output", name] == self.last and ticks[-1:] == [end] for name, ticks in self.outputs.items())
        return self.ticks + self.last + self.waits + gives

    def edge_of(self, name, number):
        """The edges after which a word of an output has left such a run."""
        return self.times["output", name] + self.outputs[name][number] + 2 + self.waits


@dataclass
class Runs:
    """The runs of a compiled kernel in a folder: the ticks, the words of each input and those that the run reads of them, the
    words of scalars, what the equations give, the ports, and whether the run is guarded."""

    case: Case
    folder: object
    ticks: int
    words: dict
    read: dict
    scalars: dict
    wanted: dict
    edges: int
    ports: Ports
    is_guarded: bool

    def spec(self, **more):
        inputs = {name: f"in_{name}.txt" for name in self.words}
        outputs = {name: f"out_{name}.txt" for name in self.wanted}
        run = {"ticks": {self.case.name: self.ticks}, "inputs": inputs, "outputs": outputs, "edges": self.edges}
        widths = {name: of.width for name, of in self.case.maker.scalars.items()}
        if self.scalars or random.random() < 0.1:
            run["scalars"] = {f"{self.case.name}.{name}": testbench.hex_of(word, widths[name]) for name, word in self.scalars.items()}
        return run | {"fill": f"{random.getrandbits(128):x}"} | more

    def give(self, words):
        for name, listed in words.items():
            width = self.case.maker.inputs[name].width
            lines = [testbench.hex_of(word, width) for word in listed]
            (self.folder / f"in_{name}.txt").write_text("".join(line + "\n" for line in lines))

    def simulate(self, spec):
        """The line that is said, its edges, and the words that left."""
        (self.folder / "run.json").write_text(json.dumps(spec))
        done = subprocess.run([PROGRAM, "simulate", "text.v", "run.json"], cwd=self.folder, capture_output=True, text=True)
        line = done.stdout.strip()
        if done.returncode not in (0, 6) or line.startswith("done") != (done.returncode == 0):
            raise ValueError(f"simulate ends with {done.returncode}: {line} {done.stderr}")
        left = {name: (self.folder / file).read_text().split() for name, file in spec["outputs"].items()}
        return line, int(line.split()[-2]), left

    def wrong_words(self, spec, has_all):
        """What is wrong of a run, if anything is, and how it ended."""
        line, edges, left = self.simulate(spec)
        if not self.is_guarded:
            return None, line, edges
        if line.startswith("done") != has_all:
            return f"{line}, with words for {'all' if has_all else 'fewer'} ticks", line, edges
        for name, listed in left.items():
            wanted = self.wanted[name]
            if not icarus_words.beside(listed, wanted) or (has_all and len(listed) < len(wanted)):
                return f"output {name}: {listed}, and not {wanted}", line, edges
        return None, line, edges

    def wrong_icarus(self, spec, line, edges):
        """What is wrong of Icarus's run beside the last one of maxjc."""
        most = edges + 1 if line.startswith("done") else edges
        last, left = icarus_words.icarus(self.folder / "text.v", spec, self.folder, most)
        if last is None:
            return f"iverilog: {left}"
        if last != [line]:
            return f"maxjc says {line}, Icarus {last}"
        for name, file in spec["outputs"].items():
            ours = (self.folder / file).read_text().split()
            if icarus_words.differ(ours, left[name], self.wanted[name]):
                return f"output {name}: maxjc {ours}, Icarus {left[name]}"
        return None


def any_word(width):
    return random.choice([0, 1, 2**width - 1, 2 ** (width - 1), random.getrandbits(width), random.getrandbits(width)])


def times_of(report):
    """The times of nodes that a report of one kernel says."""
    return [int(line.split()[1]) for line in report.splitlines() if line.startswith("time ")]


def runs_of(case, folder):
    """Some ticks, and words for a few more."""
    kernel = schedule_rules.Kernel(case.calls)
    far = max([abs(ahead) for _, _, ahead in kernel.edges] + [0])
    ticks = random.choice([0, 1, 2, 9, 20, 20, 33, 33]) + random.choice([0, far, far])
    given = ticks + random.randrange(1, 6)
    words = {name: [any_word(of.width) for _ in range(given)] for name, of in case.maker.inputs.items()}
    scalars = {name: any_word(of.width) for name, of in case.maker.scalars.items()}
    nodes = stream_equations.nodes_of(case.calls)
    streams = stream_equations.Streams(nodes, ticks, words, scalars)
    ports = Ports(nodes, times_of((folder / "report").read_text()), streams)
    read = {name: listed[: len(ports.inputs[name])] for name, listed in words.items()}
    wanted = {name: streams.output(name) for name in case.maker.outputs}
    return Runs(case, folder, ticks, words, read, scalars, wanted, ports.edges() + 20, ports, streams.unguarded() is None)


def runs_to_try(runs):
    """The words and the run file of each run, and whether the words suffice: without stalls, under a pattern of stalls, and with
    too few words of some inputs."""
    enough = {name: random.choice([runs.read[name], listed]) for name, listed in runs.words.items()}
    yield enough, runs.spec(), True
    yield runs.words, runs.spec(pattern=random.randrange(1, 2**64), edges=runs.edges * SLOWER), True
    needed = sorted(name for name, listed in runs.read.items() if listed)
    if needed:
        short = random.sample(needed, random.randint(1, len(needed)))
        fewer = {name: runs.read[name][: random.randrange(len(runs.read[name]))] for name in short}
        yield runs.words | fewer, runs.spec(pattern=random.choice([0, random.randrange(1, 2**64)])), False


def wrong_runs(runs):
    """What is wrong of the runs of a compiled kernel, if anything is."""
    has_icarus = shutil.which("iverilog") and runs.is_guarded and not runs.case.maker.divides_wide
    beside = random.randrange(3) if has_icarus else None
    for number, (words, spec, has_all) in enumerate(runs_to_try(runs)):
        runs.give(words)
        wrong, line, edges = runs.wrong_words(spec, has_all)
        if wrong is None and number == beside:
            wrong = runs.wrong_icarus(spec, line, edges)
        if wrong is None and number == 0 and runs.is_guarded and edges != runs.ports.edges():
            wrong = f"{line}, and not after {runs.ports.edges()}"
        if wrong:
            return f"{json.dumps(spec)}: {wrong}, of {words}"
    return None


def wrong_due(runs, counted):
    """What is wrong of the edges in which some words leave, if anything is."""
    if not runs.is_guarded:
        return None
    runs.give(runs.words)
    places = [(name, number) for name, ticks in runs.ports.outputs.items() for number in range(len(ticks))]
    for name, number in random.sample(places, min(DUE, len(places))):
        edges = runs.ports.edge_of(name, number)
        for most, count in ((edges, number + 1), (edges - 1, number)):
            line, _, left = runs.simulate(runs.spec(edges=most))
            if len(left[name]) != count:
                return f"{line}: output {name} gave {len(left[name])} words, and not {count}"
        counted["due"] += 1
    return None


def wrong_storage(case, text):
    """What is wrong of the bits that the kernel's module stores, if anything is."""
    kernel = schedule_rules.Kernel(case.calls)
    wanted = int(case.said.split()[-1]) + POSITION
    for node, kind in enumerate(kernel.kinds):
        wanted += kernel.widths[node] * (kernel.latency(node, case.table)[0] + (kind in STATES))
    stored = 0
    items = next(items for name, _, items in testbench.modules_of(text) if name == f"kernel${case.name}")
    for high, _, last in testbench.STORE.findall(items):
        stored += (int(high) + 1) * (int(last) + 1 if last else 1)
        wanted += least_bits(int(last)) if last else 0
    return None if stored == wanted else f"{stored} bits are stored, and not {wanted}"


def trial(folder, counted):
    """What is wrong of a random kernel, if anything is."""
    case = any_case()
    (folder / "source.maxj").write_text(case.source)
    (folder / "table.json").write_text(json.dumps(case.table))
    words = [PROGRAM, "compile", "source.maxj", "table.json", "text.v", "report"]
    done = subprocess.run(words, cwd=folder, capture_output=True, text=True)
    case.said = done.stdout.strip()
    code, right = case.judged()
    counted[code] += 1
    if not right or done.returncode != (code != "none"):
        return case.told(f"{case.said or 'nothing'}, status {done.returncode}, where {code} stands")
    if code != "none":
        return None
    runs = runs_of(case, folder)
    try:
        wrong = wrong_storage(case, (folder / "text.v").read_text()) or wrong_runs(runs) or wrong_due(runs, counted)
    except ValueError as fault:
        wrong = str(fault)
    count_run(runs, counted)
    return case.told(wrong) if wrong else None


def count_run(runs, counted):
    """Counts what the kernel has, and its words where they are bound."""
    nodes = stream_equations.nodes_of(runs.case.calls)
    if not runs.is_guarded:
        counted["unguarded"] += 1
        return
    for kind, is_one in KINDS.items():
        counted[kind] += any(map(is_one, nodes))
    all_words = [word for listed in runs.wanted.values() for word in listed]
    counted["words"] += len(all_words)
    counted["defined"] += sum(word is not None for word in all_words)


def main():
    counted = Counter()
    count = trials.run(200, lambda folder: trial(folder, counted))
    if count:
        codes = ", ".join(f"{code} {counted[code]}" for code in ("L1", "C1", "C2", "unguarded"))
        beside = "and Icarus" if shutil.which("iverilog") else "(Icarus is not installed here)"
        print(f"{count} random kernels ({codes}): the words of the stream equations {beside}, {counted['defined']} of {counted['words']} defined")
        kinds = ", ".join(f"{kind} {counted[kind]}" for kind in KINDS)
        print(f"kernels in guarded runs with {kinds}; {counted['due']} words looked at in the edge in which they leave")
    return 1 if count is None else 0


if __name__ == "__main__":
    sys.exit(main())
