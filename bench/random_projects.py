#!/usr/bin/env python3
"""Compares `maxjc compile`, `check`, `expect` and `simulate` with the stream equations on random projects.

A project (bench/project_maker.py) has up to six kernels of all kinds of nodes, linked by splits and joins with and without
controls, whose ticks are often different, and a random latency table. What `compile` says is to be what bench/join_rules.py
says, and the depths of links those of docs/HARDWARE.md, worked out here from the times in the report; `check` is to say the same
bits. `expect` is to write the words of the stream equations, of all words and of too few, and to say where the run is first
unguarded and first unbalanced.

Then the text is run by `maxjc simulate`: without stalls, under a pattern of stalls, and with too few words, from random
contents. Where no control and no store is undefined, the words that leave are to be the first of those of the stream equations,
where an undefined word may be any. Where the run is balanced besides (docs/HARDWARE.md), all words leave where the files have
them, each has left after its due count of edges in which nothing stalls, and the run is done in time.

Where Icarus is installed, one of the guarded runs is made by it too, with the same words and the same end, but for projects with
quotients of words that Icarus can't divide by 1.

    bench/random_projects.py [COUNT [SEED]]
"""
import json
import random
import shutil
import subprocess
import sys
from collections import Counter
from dataclasses import dataclass

import icarus_words
import project_maker
import stream_equations
import testbench
import trials
from project_streams import CPU, ProjectStreams
from random_kernels import any_word
from trials import PROGRAM

SLOWER = 40  # times as many edges may a run take where all ports stall in a fourth of them
DUE = 2  # words of a run whose edge is looked at
CONTROLLED = 512  # words of a link with a controlled end


@dataclass
class Run:
    """What is given to a run of a project, and what the equations and the ideal run say of it."""

    ticks: list
    words: dict
    scalars: dict
    streams: ProjectStreams
    balanced: bool = True

    @property
    def guarded(self):
        return self.streams.is_guarded()


class Project:
    """A compiled project: its nodes, the times of its report, and the starts and depths that follow from them."""

    def __init__(self, made, report):
        self.made = made
        self.nodes = [stream_equations.nodes_of(part.calls) for part in made.kernels]
        self.times = times_of(report)
        self.starts = self.least_starts()
        self.depths = [self.depth(*link) for link in self.ordered_links()]

    def port(self, number, kind, name):
        return next(n for n, node in enumerate(self.nodes[number]) if node.kind == kind and node.name == name)

    def ordered_links(self):
        """The links in the order of the manager's joins."""
        of = {to: (from_, to) for from_, to in self.made.links}
        return [of[left] for left, right in self.made.built.manager.joins if CPU not in (left[0], right[0])]

    def early(self, link):
        """How many edges later than the output's kernel the input's one starts at the least."""
        (a, output), (b, name) = link
        return self.times[a][self.port(a, "output", output)] + 1 - self.times[b][self.port(b, "input", name)]

    def least_starts(self):
        starts = [1] * len(self.nodes)
        for _ in self.nodes:
            for link in self.made.links:
                (a, _), (b, _) = link
                starts[b] = max(starts[b], starts[a] + self.early(link))
        return starts

    def depth(self, from_, to):
        ends = (self.nodes[from_[0]][self.port(from_[0], "output", from_[1])],
                self.nodes[to[0]][self.port(to[0], "input", to[1])])
        if any(node.control is not None for node in ends):
            return CONTROLLED
        return self.starts[to[0]] - self.starts[from_[0]] - self.early((from_, to)) + 2

    def first_edge(self, number, kind, name):
        return self.starts[number] + self.times[number][self.port(number, kind, name)]

    def enabled(self, run, number, kind, name):
        """The ticks in which a port is enabled."""
        control = self.nodes[number][self.port(number, kind, name)].control
        streams = run.streams.kernels[number]
        return [tick for tick in range(run.ticks[number]) if control is None or streams.word(control, tick) == 1]

    def fault(self, run, link, depth):
        """Where a link is first dry or full in the ideal run, the edge, the side and the tick, or None."""
        (a, output), (b, name) = link
        write_from, read_from = self.first_edge(a, "output", output), self.first_edge(b, "input", name)
        written = [write_from + tick for tick in self.enabled(run, a, "output", output)]
        read = [read_from + tick for tick in self.enabled(run, b, "input", name)]
        dry = [(edge, "dry", edge - read_from) for number, edge in enumerate(read)
               if number >= len(written) or written[number] >= edge]
        full = [(edge, "full", edge - write_from) for number, edge in enumerate(written)
                if number - sum(other < edge for other in read) >= depth]
        return min(dry + full, default=None)

    def first_fault(self, run):
        """The first link that is dry or full in the ideal run, with its side and its tick there, or None."""
        for number, (link, depth) in enumerate(zip(self.ordered_links(), self.depths)):
            fault = self.fault(run, link, depth)
            if fault:
                return number, *fault[1:]
        return None

    def done_count(self, run):
        """The edges after which a balanced run without stalls is done at the latest."""
        counts = []
        for number, nodes in enumerate(self.nodes):
            last = max([self.times[number][n] for n, node in enumerate(nodes) if node.kind in ("input", "output")] + [0])
            counts.append(self.starts[number] + run.ticks[number] + last + 1)
        return max(counts)


def times_of(report):
    """The times of the nodes of each kernel that a report says."""
    times = []
    for line in report.splitlines():
        if line.startswith("kernel "):
            times.append([])
        elif line.startswith("time "):
            times[-1].append(int(line.split()[1]))
    return times


# what the equations say of a run


def any_run(project):
    """Ticks, words and scalars, and the streams of all kernels."""
    made = project.made
    equal = random.choice([0, 1, 2, 9, 20, 33])
    ticks = [equal if random.random() < 0.8 else random.choice([0, 1, 5, equal, 2 * equal, 33]) for _ in made.kernels]
    if random.random() < 0.5:
        ticks = [equal] * len(ticks)
    words = {}
    for stream, (number, name) in made.from_cpu.items():
        width = made.kernels[number].maker.inputs[name].width
        words[stream] = [any_word(width) for _ in range(ticks[number] + random.randrange(1, 6))]
    scalars = {part.name: {name: any_word(of.width) for name, of in part.maker.scalars.items()} for part in made.kernels}
    by_name = {part.name: count for part, count in zip(made.kernels, ticks)}
    run = Run(ticks, words, scalars, ProjectStreams(made.built, by_name, words, scalars))
    run.balanced = project.first_fault(run) is None
    return run


def with_words(project, run, words):
    """The same run with other words of the streams from the CPU."""
    made = project.made
    by_name = {part.name: count for part, count in zip(made.kernels, run.ticks)}
    other = Run(run.ticks, words, run.scalars, ProjectStreams(made.built, by_name, words, run.scalars))
    other.balanced = project.first_fault(other) is None
    return other


def lines_of(project, run):
    """The two lines that `expect` is to say of a run."""
    guarded, balanced = "guarded", "balanced"
    for part, streams in zip(project.made.kernels, run.streams.kernels):
        place = streams.unguarded()
        if place:
            guarded = f"unguarded kernel {part.name} node {place[0]} tick {place[1]}"
            break
    fault = project.first_fault(run)
    if fault:
        balanced = "unbalanced link {} {} {}".format(*fault)
    return [guarded, balanced]


# runs of the text


class Trial:
    """The runs of a compiled project in a folder."""

    def __init__(self, project, run, folder):
        self.project, self.given, self.folder = project, run, folder
        self.wanted = run.streams.outputs()
        self.edges = project.done_count(run) + 20

    def spec(self, **more):
        made = self.project.made
        run = {
            "ticks": {part.name: ticks for part, ticks in zip(made.kernels, self.given.ticks)},
            "inputs": {stream: f"in_{stream}.txt" for stream in made.from_cpu},
            "outputs": {stream: f"out_{stream}.txt" for stream in made.to_cpu},
            "edges": self.edges,
        }
        scalars = {}
        for part in made.kernels:
            for name, word in self.given.scalars[part.name].items():
                scalars[f"{part.name}.{name}"] = testbench.hex_of(word, part.maker.scalars[name].width)
        if scalars:
            run["scalars"] = scalars
        return run | {"fill": f"{random.getrandbits(128):x}"} | more

    def give(self, words):
        for stream, listed in words.items():
            number, name = self.project.made.from_cpu[stream]
            width = self.project.made.kernels[number].maker.inputs[name].width
            lines = [testbench.hex_of(word, width) for word in listed]
            (self.folder / f"in_{stream}.txt").write_text("".join(line + "\n" for line in lines))

    def simulate(self, spec):
        """The line that is said, its edges, and the words that left."""
        (self.folder / "run.json").write_text(json.dumps(spec))
        done = subprocess.run([PROGRAM, "simulate", "text.v", "run.json"], cwd=self.folder, capture_output=True, text=True)
        line = done.stdout.strip()
        if done.returncode not in (0, 6) or line.startswith("done") != (done.returncode == 0):
            raise ValueError(f"simulate ends with {done.returncode}: {line} {done.stderr}")
        left = {stream: (self.folder / file).read_text().split() for stream, file in spec["outputs"].items()}
        return line, int(line.split()[-2]), left

    def wrong_words(self, spec, has_all):
        """What is wrong of a run, if anything is, and how it ended."""
        line, edges, left = self.simulate(spec)
        if not self.given.guarded:
            return None, line, edges
        for stream, listed in left.items():
            if not icarus_words.beside(listed, self.wanted[stream]):
                return f"output {stream}: {listed}, and not {self.wanted[stream]}", line, edges
        if has_all and self.given.balanced:
            if not line.startswith("done"):
                return f"{line}, with all words", line, edges
            short = [stream for stream, listed in left.items() if len(listed) < len(self.wanted[stream])]
            if short:
                return f"output {short[0]} lacks words", line, edges
        return None, line, edges

    def wrong_icarus(self, spec, line, edges):
        """What is wrong of Icarus's run beside the last one of maxjc."""
        most = edges + 1 if line.startswith("done") else edges
        last, left = icarus_words.icarus(self.folder / "text.v", spec, self.folder, most)
        if last is None:
            return f"iverilog: {left}"
        if last != [line]:
            return f"maxjc says {line}, Icarus {last}"
        for stream, file in spec["outputs"].items():
            ours = (self.folder / file).read_text().split()
            if icarus_words.differ(ours, left[stream], self.wanted[stream]):
                return f"output {stream}: maxjc {ours}, Icarus {left[stream]}"
        return None

    def to_try(self):
        """The words and the run file of each run, and whether the words suffice."""
        yield self.given.words, self.spec(), True
        yield self.given.words, self.spec(pattern=random.randrange(1, 2**64), edges=self.edges * SLOWER), True
        if self.given.words:
            short = random.sample(sorted(self.given.words), random.randint(1, len(self.given.words)))
            fewer = {stream: self.given.words[stream][: random.randrange(len(self.given.words[stream]))] for stream in short}
            yield self.given.words | fewer, self.spec(pattern=random.choice([0, random.randrange(1, 2**64)])), False

    def wrong_expected(self, run):
        """What is wrong of what `expect` writes and says of a run, if anything is."""
        self.give(run.words)
        spec = self.spec()
        (self.folder / "run.json").write_text(json.dumps(spec))
        words = [PROGRAM, "expect", "source.maxj", "table.json", "report", "run.json"]
        done = subprocess.run(words, cwd=self.folder, capture_output=True, text=True)
        wanted = lines_of(self.project, run)
        if done.returncode != 0 or done.stdout.split("\n")[:-1] != wanted:
            return f"expect says {done.stdout}, status {done.returncode}, and not {wanted}, of {json.dumps(spec)} and {run.words}"
        for stream, listed in run.streams.outputs().items():
            number, name = self.project.made.to_cpu[stream]
            width = self.project.made.kernels[number].maker.outputs[name].width
            right = [undefined_of(width) if word is None else testbench.hex_of(word, width) for word in listed]
            ours = (self.folder / spec["outputs"][stream]).read_text().splitlines()
            if ours != right:
                return f"expect writes {ours} to {stream}, and not {right}, of {json.dumps(spec)} and {run.words}"
        return None

    def wrong_expect(self, counted):
        """The same of the run, and of one with too few words."""
        counted["expected"] += 1
        wrong = self.wrong_expected(self.given)
        if wrong or not self.given.words:
            return wrong
        fewer = {stream: listed[: random.randrange(len(listed))] for stream, listed in self.given.words.items()}
        other = with_words(self.project, self.given, fewer)
        counted["expected"] += 1
        return self.wrong_expected(other)

    def wrong_runs(self):
        divides = any(part.maker.divides_wide for part in self.project.made.kernels)
        beside = random.randrange(3) if shutil.which("iverilog") and self.given.guarded and not divides else None
        for number, (words, spec, has_all) in enumerate(self.to_try()):
            self.give(words)
            wrong, line, edges = self.wrong_words(spec, has_all)
            if wrong is None and number == beside:
                wrong = self.wrong_icarus(spec, line, edges)
            in_time = edges <= self.project.done_count(self.given)
            if wrong is None and number == 0 and self.given.guarded and self.given.balanced and not in_time:
                wrong = f"{line}, and not after {self.project.done_count(self.given)} at the latest"
            if wrong:
                return f"{json.dumps(spec)}: {wrong}, of {words}"
        return None

    def wrong_due(self, counted):
        """What is wrong of the edges after which some words have left, if anything is."""
        if not (self.given.guarded and self.given.balanced):
            return None
        self.give(self.given.words)
        places = []
        for stream, (number, name) in self.project.made.to_cpu.items():
            ticks = self.project.enabled(self.given, number, "output", name)
            begin = self.project.first_edge(number, "output", name)
            places += [(stream, place, begin + tick + 2) for place, tick in enumerate(ticks)]
        for stream, place, edges in random.sample(places, min(DUE, len(places))):
            line, _, left = self.simulate(self.spec(edges=edges))
            if len(left[stream]) <= place:
                return f"{line}: output {stream} gave {len(left[stream])} words, and word {place} is due"
            counted["due"] += 1
        return None


def undefined_of(width):
    """An undefined word in a file."""
    return "x" * -(-width // 4)


def wrong_lines(made, project):
    """What is wrong of the depths that are said, if anything is."""
    wanted = [f"link {number} depth {depth}" for number, depth in enumerate(project.depths)]
    said = made.said.split("\n")[len(made.kernels):]
    return None if said == wanted else f"{said}, and not {wanted}"


def wrong_check(made, folder):
    """What is wrong of what `check` says of the report, if anything is."""
    done = subprocess.run([PROGRAM, "check", "source.maxj", "table.json", "report"], cwd=folder, capture_output=True, text=True)
    wanted = [line.replace(" fifo ", " least ") for line in made.said.split("\n")[: len(made.kernels)]]
    return None if done.stdout.split("\n")[:-1] == wanted else f"check says {done.stdout}"


def trial(folder, counted):
    """What is wrong of a random project, if anything is."""
    made = project_maker.any_project()
    (folder / "source.maxj").write_text(made.source)
    (folder / "table.json").write_text(json.dumps(made.table))
    words = [PROGRAM, "compile", "source.maxj", "table.json", "text.v", "report"]
    done = subprocess.run(words, cwd=folder, capture_output=True, text=True)
    made.said = done.stdout.rstrip("\n")
    code, right = made.judged()
    counted[code] += 1
    if not right or done.returncode != (code != "none"):
        return made.told(f"{made.said or 'nothing'}, status {done.returncode}, where {code} stands")
    if code != "none":
        return None
    project = Project(made, (folder / "report").read_text())
    run = any_run(project)
    runs = Trial(project, run, folder)
    try:
        wrong = wrong_lines(made, project) or wrong_check(made, folder) or runs.wrong_expect(counted)
        wrong = wrong or runs.wrong_runs() or runs.wrong_due(counted)
    except ValueError as fault:
        wrong = str(fault)
    count_run(made, run, runs, counted)
    return made.told(wrong) if wrong else None


def count_run(made, run, runs, counted):
    """Counts what the project has, and its words where they are bound."""
    counted["kernels"] += len(made.kernels)
    counted["links"] += len(made.links)
    if not run.guarded:
        counted["unguarded"] += 1
        return
    counted["unbalanced"] += not run.balanced
    all_words = [word for listed in runs.wanted.values() for word in listed]
    counted["words"] += len(all_words)
    counted["defined"] += sum(word is not None for word in all_words)


def main():
    counted = Counter()
    count = trials.run(100, lambda folder: trial(folder, counted))
    if count:
        codes = ", ".join(f"{code} {counted[code]}" for code in ("L1", "C1", "C2", "unguarded", "unbalanced"))
        beside = "and Icarus" if shutil.which("iverilog") else "(Icarus is not installed here)"
        print(f"{count} random projects ({codes}) of {counted['kernels']} compiled kernels with {counted['links']} links: the words of the "
              f"stream equations {beside}, {counted['defined']} of {counted['words']} defined; {counted['expected']} runs expected, {counted['due']} words looked at when "
              "they are due")
    return 1 if count is None else 0


if __name__ == "__main__":
    sys.exit(main())
