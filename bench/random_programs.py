#!/usr/bin/env python3
"""Compares `maxjc compile` with the evaluator of docs/LANGUAGE.md on random constructors.

The sources are files of the grammar: kernels with loops, arrays, methods, strings, rounding modes and
streams, some of them broken, some at a limit of the language, and some with a manager. Where the
evaluator (bench/building_run.py, written from that page alone) says a refusal by a code E or G, the program
is to say that line. Where the runs end well, bench/join_rules.py says whether a manager breaks a rule of joins,
and bench/schedule_rules.py whether L1, C1, C2 or B1 stands by a random latency table; where none does, the
program is to compile the source, with FIFOs of the fewest bits.

    bench/random_programs.py [COUNT [SEED]]
"""
import json
import random
import subprocess
import sys
from collections import Counter
from dataclasses import dataclass

import building_run
import join_rules
import program_maker
import schedule_rules
import trials
from trials import PROGRAM, TOP


ZERO = json.loads((TOP / "examples/tables/zero.json").read_text())


@dataclass
class Wanted:
    """What the program is to say: a line, or where there is none what the rules say of the kernels and of the manager."""

    line: str
    kernels: list = None
    manager: object = None
    table: dict = None

    def judged(self, said):
        """The code that stands, and whether the program says it rightly."""
        if self.line is not None:
            return self.line.split()[1], said == self.line
        if self.manager:
            return join_rules.judged(self.kernels, self.manager, self.table, said)
        return schedule_rules.judged(*self.kernels[0], self.table, said)


def wanted_of(built, table=None):
    """What the program is to say of a source, by what the evaluator built of it, and a latency table."""
    return Wanted(built.line, built.kernels, built.manager, table or ZERO)


def any_table():
    """All latencies 0, or some of up to 3 ticks, by width, and at times without an operation."""
    if random.random() < 0.4:
        return ZERO
    table = {}
    for op in ZERO:
        if random.random() < 0.97:
            froms = sorted({1, *random.sample(range(2, 129), random.randrange(3))})
            table[op] = [[least, random.choice([0, 0, 1, 1, 2, 3])] for least in froms]
    return table


def program_line(folder, source, table=None):
    """What the program says of a source and a table."""
    (folder / "source.maxj").write_text(source)
    (folder / "table.json").write_text(json.dumps(table or ZERO))
    words = [PROGRAM, "compile", "source.maxj", "table.json", "out.v", "out.report"]
    return subprocess.run(words, cwd=folder, capture_output=True, text=True).stdout.strip()


def steps_of(source):
    built = building_run.build(source)
    return None if built.line else built.steps


def place_of(code):
    """What a code is sorted by."""
    return (code[0], int(code[1:]) if code[1:].isdigit() else 0, code)


def main():
    codes = Counter()

    def trial(folder):
        source, table = program_maker.any_program(steps_of), any_table()
        wanted = wanted_of(building_run.build(source), table)
        said = program_line(folder, source, table)
        code, right = wanted.judged(said)
        codes[code] += 1
        if right:
            return None
        return f"{said or 'nothing'}, and not {wanted.line or code} by {json.dumps(table)}:\n{source}"

    count = trials.run(1000, trial)
    if count:
        told = ", ".join(f"{code} {codes[code]}" for code in sorted(codes, key=place_of))
        print(f"{count} random constructors: the program says what the page says ({told})")
    return 1 if count is None else 0


if __name__ == "__main__":
    sys.exit(main())
