#!/usr/bin/env python3
"""Compares `maxjc check` with the checker of bench/report_rules.py on changed reports.

The reports are those that `maxjc compile` writes of three kernels of bench/kernels; of a kernel
that it doesn't compile, the one that bench/report_rules.py makes. One of `compile` is to have the
same bits and the same times, which are the earliest. The status of `check` and what it says are to
be those of the checker for

- each report as it is, and that of docs/REPORTS.md with changes that were worked by hand;
- each with one byte as another one: at each place all digits, a blank, a line feed, `-`, the
  letters of a report's words, and 8 of the other values, which come in turn (with the word `every`
  all 255 others);
- each with one line left out, written twice, or turned round with the next one;
- each with one number as another one, among them those at the limits of the form and of schedules;
- each with no kernel and with its kernel twice, with a node some ticks later and the bits that this
  costs, and with some of the flow sent another way.

It prints how many were refused by which code, and how many were accepted: they show as much as the
report did. Four processes run the program at once.

    bench/check_reports.py [every]
"""
import copy
import itertools
import json
import multiprocessing
import os
import pathlib
import re
import subprocess
import sys
import tempfile
from collections import Counter
from dataclasses import dataclass

import building_run
import report_rules
from trials import PROGRAM, TOP

# sources of bench/kernels, and tables of examples/tables
KERNELS = [("sum3", "one"), ("ties", "pipelined"), ("stencil", "one")]
CODES = ["Q1", "Q2", "Q3", "Q4", "Q5"]
PROCESSES, BATCH = 4, 200
USUAL = sorted(set(b"maxjc-report kernel nodes edges bits time flow end\n0123456789"))
OTHERS = [value for value in range(256) if value not in USUAL]
OTHERS_AT_ONCE = 8
NUMBER = re.compile(rb"(?<= )-?\d+")
AT_LIMITS = [2**bits + more for bits in (32, 46, 60, 63, 64) for more in (-1, 0, 1)]
NUMBERS = [f"{sign}{number}" for sign in ("", "-") for number in AT_LIMITS]
NUMBERS += ["0", "1", "2", "-1", "-0", "00", "01", "+1", "1 ", ""]
MOST_LATER, MOST_SHOWN = 3, 20

# lines of the report of docs/REPORTS.md that are changed, by their numbers, and what is then said
WORKED = [
    ({}, "kernel Sum3 least 32"),
    ({1: "maxjc-report 2"}, "refused Q1 1"),
    ({19: "flow 32"}, "refused Q1 19"),
    ({2: "kernel Sum4 nodes 6 edges 5 bits 32"}, "refused Q2 2"),
    ({6: "time -1"}, "refused Q2 6"),
    ({6: f"time {2**46}"}, "kernel Sum3 least 32"),
    ({6: f"time {2**46 + 1}"}, "refused Q2 6"),
    ({7: "time 0"}, "refused Q3 Sum3 4"),
    ({2: "kernel Sum3 nodes 6 edges 5 bits 0", 7: "time 0"}, "refused Q2 2"),
    ({10: "flow 31"}, "refused Q4 Sum3 2"),
    ({2: "kernel Sum3 nodes 6 edges 5 bits 64", 7: "time 2", 8: "time 3"}, "refused Q5 Sum3 64 32"),
]


@dataclass
class Project:
    """A source and a table, the problems of its kernels, and the report that is changed."""

    name: str
    source: pathlib.Path
    table: pathlib.Path
    problems: list
    report: bytes = b""
    maker: str = "bench/report_rules.py"

    def told(self, codes):
        counts = ", ".join(f"{code} {codes[code]}" for code in [*CODES, "accepted"])
        return f"{self.name}, made by {self.maker}: {sum(codes.values())} reports: {counts}"


def project_of(name, table_name):
    source = TOP / "bench/kernels" / f"{name}.maxj"
    table = TOP / "examples/tables" / f"{table_name}.json"
    latencies = json.loads(table.read_text())
    kernels = building_run.build(source.read_text()).kernels
    problems = [report_rules.Problem(*kernel, latencies) for kernel in kernels]
    return Project(name, source, table, problems)


def written_report(project, folder):
    """The report that `compile` writes, or None of a kernel that it doesn't compile."""
    words = [PROGRAM, "compile", project.source, project.table, "out.v", f"{project.name}.report"]
    ended = subprocess.run(words, cwd=folder, capture_output=True)
    return (folder / f"{project.name}.report").read_bytes() if ended.returncode == 0 else None


def take_report(project, folder):
    """Gives a project its report; answers what is wrong of the one of `compile`, or None."""
    made = [problem.least_part() for problem in project.problems]
    project.report = report_rules.text_of(made)
    written = written_report(project, folder)
    if written is None:
        return None
    if report_rules.judged(project.problems, written)[0]:
        return f"{project.name}: compile writes a report that shows no least schedule"
    project.report, project.maker = written, "compile"
    parts = report_rules.read(written)
    if [(part.bits, part.times) for part in parts] != [(part.bits, part.times) for part in made]:
        return f"{project.name}: compile writes other times than the earliest"
    return None


# changes of a report: what is changed, and the text


def with_other_bytes(text, every):
    for place in range(len(text)):
        first = place * OTHERS_AT_ONCE
        some = [OTHERS[(first + more) % len(OTHERS)] for more in range(OTHERS_AT_ONCE)]
        for value in range(256) if every else USUAL + some:
            if value != text[place]:
                other = text[:place] + bytes([value]) + text[place + 1 :]
                yield f"byte {place} as {value}", other


def with_other_lines(text):
    lines = text.splitlines(keepends=True)
    for number, line in enumerate(lines):
        before, behind = lines[:number], lines[number + 1 :]
        yield f"line {number + 1} left out", b"".join(before + behind)
        yield f"line {number + 1} twice", b"".join(before + [line, line] + behind)
        turned = before + behind[:1] + [line] + behind[1:]
        yield f"line {number + 1} behind the next", b"".join(turned)


def with_other_numbers(text):
    for match in NUMBER.finditer(text):
        for number in NUMBERS:
            other = text[: match.start()] + number.encode() + text[match.end() :]
            yield f"the number at {match.start()} as '{number}'", other


def with_later_times(problem, part):
    """One node or all nodes later, with the bits that this costs."""
    for node in [*range(part.nodes), None]:
        for later in range(1, MOST_LATER + 1):
            other = copy.deepcopy(part)
            for number in range(part.nodes) if node is None else [node]:
                other.times[number] += later
            other.bits = problem.cost(other.times)
            if other.bits >= 0:
                yield f"{'all nodes' if node is None else f'node {node}'} later by {later}", other


def other_ways(problem):
    """Arcs, and others over which flow may be sent in their place: an arc with the same ends, or
    the two arcs of another edge from the same node."""
    ends = [arc[:2] for arc in problem.arcs]
    for old, new in itertools.permutations(range(len(ends)), 2):
        if ends[old] == ends[new]:
            yield [old], [new]
        if old % 2 == new % 2 == 0 and ends[old][0] == ends[new][0]:
            yield [old, old + 1], [new, new + 1]


def with_other_flow(problem, part):
    """One unit sent another way."""
    for old, new in other_ways(problem):
        other = copy.deepcopy(part)
        for arcs, more in ((old, -1), (new, 1)):
            for arc in arcs:
                other.flow[arc] += more
        if min(other.flow) >= 0:
            yield f"flow over {new} in place of {old}", other


def with_other_parts(problems, text):
    parts = report_rules.read(text)
    yield "no kernel", report_rules.text_of([])
    yield "each kernel twice", report_rules.text_of(parts + parts)
    for number, (problem, part) in enumerate(zip(problems, parts)):
        before, behind = parts[:number], parts[number + 1 :]
        for change in (with_later_times, with_other_flow):
            for what, other in change(problem, part):
                yield what, report_rules.text_of(before + [other] + behind)


def worked_text(lines):
    """The report of docs/REPORTS.md with other lines."""
    page = (TOP / "docs/REPORTS.md").read_text()
    report = page[page.index("maxjc-report 1\n") :]
    listed = report[: report.index("```")].splitlines()
    return "".join(f"{lines.get(number, line)}\n" for number, line in enumerate(listed, 1)).encode()


def changes_of(project, every):
    yield "no change", project.report
    yield from with_other_bytes(project.report, every)
    yield from with_other_lines(project.report)
    yield from with_other_numbers(project.report)
    yield from with_other_parts(project.problems, project.report)
    if project.name == "sum3":
        yield from ((f"the page's with {lines}", worked_text(lines)) for lines, _ in WORKED)


def wrong_checker(problems):
    """What the checker says otherwise than was worked by hand."""
    for lines, line in WORKED:
        said = report_rules.judged(problems, worked_text(lines))[1].strip()
        if said != line:
            yield f"the page's report with {lines}: the checker says {said}, and not {line}"


class Process:
    """What a process has: the projects, and a folder of its own."""

    projects, folder = [], None

    @classmethod
    def begin(cls, projects, folder):
        cls.projects, cls.folder = projects, folder / str(os.getpid())
        cls.folder.mkdir()

    @classmethod
    def said(cls, project, text):
        """The status of `check` and what it says of a report."""
        (cls.folder / "report").write_bytes(text)
        words = [PROGRAM, "check", project.source, project.table, "report"]
        done = subprocess.run(words, cwd=cls.folder, capture_output=True)
        return done.returncode, done.stdout.decode("latin-1")

    @classmethod
    def tried(cls, batch):
        """How often each code stands in a batch, and what the program says otherwise."""
        number, changes = batch
        project, codes, wrong = cls.projects[number], Counter(), []
        for what, text in changes:
            wanted = report_rules.judged(project.problems, text)
            codes[wanted[1].split()[1] if wanted[0] else "accepted"] += 1
            said = cls.said(project, text)
            if said != wanted:
                wrong.append(f"{project.name}, {what}: check ends with {said}, and not {wanted}")
        return number, codes, wrong


def batches(projects, every):
    for number, project in enumerate(projects):
        changes = changes_of(project, every)
        while batch := list(itertools.islice(changes, BATCH)):
            yield number, batch


def compared(projects, folder, every):
    """How often each code stands for each project, and what the program says otherwise."""
    codes, wrong = [Counter() for _ in projects], []
    with multiprocessing.Pool(PROCESSES, Process.begin, (projects, folder)) as pool:
        for number, more, other in pool.imap_unordered(Process.tried, batches(projects, every)):
            codes[number] += more
            wrong += other
    return codes, wrong


def main():
    if not PROGRAM.exists():
        print("the program isn't built here, passed over")
        return 0
    projects = [project_of(*kernel) for kernel in KERNELS]
    wrong = list(wrong_checker(projects[0].problems))
    with tempfile.TemporaryDirectory() as folder:
        work = pathlib.Path(folder)
        wrong += filter(None, [take_report(project, work) for project in projects])
        codes, otherwise = compared(projects, work, "every" in sys.argv)
    wrong += otherwise
    for project, counted in zip(projects, codes):
        wrong += [f"{project.name}: {code} never stands" for code in CODES if not counted[code]]
        print(project.told(counted))
    print("".join(f"{line}\n" for line in wrong[:MOST_SHOWN]), end="")
    print(f"check_reports: {len(wrong)} told otherwise")
    return 1 if wrong else 0


if __name__ == "__main__":
    sys.exit(main())
