#!/usr/bin/env python3
"""Shows that two programs say and write the same, byte for byte.

Both run over the sources of examples/ and bench/kernels with each table of examples/tables, the worked sources of
bench/building_sources.txt, the texts of bench/texts, and random projects, constructors and reports: `compile`, `check`,
`expect` and `simulate` of each, with and without stalls. Compared are the status, standard output and all files.

    bench/same_outputs.py OLD NEW [PROJECTS [SEED]]
"""
import json
import pathlib
import random
import subprocess
import sys
import tempfile
from collections import Counter

import check_building
import program_maker
import project_maker
import random_programs
import random_projects

TOP = pathlib.Path(__file__).resolve().parent.parent
FILES = ("text.v", "report")


def told(program, words, folder):
    """The status, what was said, and the files of a folder."""
    done = subprocess.run([program, *words], cwd=folder, capture_output=True)
    files = {path.name: path.read_bytes() for path in sorted(folder.iterdir()) if path.is_file()}
    return done.returncode, done.stdout, files


class Pair:
    """Two programs, each with a folder of its own that begins with the same files."""

    def __init__(self, old, new, folder):
        self.programs = [pathlib.Path(old).resolve(), pathlib.Path(new).resolve()]
        self.folders = [folder / "old", folder / "new"]
        self.counted = Counter()
        for part in self.folders:
            part.mkdir()

    def give(self, name, text):
        for part in self.folders:
            (part / name).write_bytes(text if isinstance(text, bytes) else text.encode())

    def clear(self):
        for part in self.folders:
            for path in part.iterdir():
                path.unlink()

    def differ(self, *words):
        """What is told otherwise by the two, or None."""
        old, new = (told(program, words, part) for program, part in zip(self.programs, self.folders))
        self.counted[words[0]] += 1
        self.counted[f"status {old[0]}"] += 1
        if old[:2] != new[:2]:
            return f"{' '.join(words)}: {old[:2]} before, {new[:2]} now"
        other = [name for name in sorted(old[2].keys() | new[2].keys()) if old[2].get(name) != new[2].get(name)]
        return f"{' '.join(words)}: other bytes in {', '.join(other)}" if other else None

    def compiled(self):
        return (self.folders[0] / "report").exists()


def compile_and_check(pair, source, table):
    pair.clear()
    pair.give("source.maxj", source)
    pair.give("table.json", table)
    return pair.differ("compile", "source.maxj", "table.json", *FILES) or (
        pair.differ("check", "source.maxj", "table.json", "report") if pair.compiled() else None)


def fixed_sources():
    """The sources that stand in the repository, and the tables."""
    tables = [path.read_text() for path in sorted((TOP / "examples/tables").glob("*.json"))]
    for path in [*sorted((TOP / "examples").glob("*/*.maxj")), *sorted((TOP / "bench/kernels").glob("*.maxj"))]:
        for table in tables:
            yield path.read_text(), table
    for worked in check_building.worked_sources():
        yield worked.source, tables[0]


def run_files(pair, made, report):
    """Gives the files of a random run of a project; its run files, without and with stalls, and with too few words."""
    project = random_projects.Project(made, report)
    trial = random_projects.Trial(project, random_projects.any_run(project), pair.folders[0])
    for words, spec, _ in trial.to_try():
        for stream, listed in words.items():
            number, name = made.from_cpu[stream]
            width = made.kernels[number].maker.inputs[name].width
            lines = "".join(random_projects.testbench.hex_of(word, width) + "\n" for word in listed)
            pair.give(f"in_{stream}.txt", lines)
        pair.give("run.json", json.dumps(spec))
        yield spec


def random_project(pair):
    made = project_maker.any_project()
    wrong = compile_and_check(pair, made.source, json.dumps(made.table))
    if wrong or not pair.compiled():
        return wrong
    report = (pair.folders[0] / "report").read_text()
    for _ in run_files(pair, made, report):
        wrong = pair.differ("expect", "source.maxj", "table.json", "report", "run.json") or pair.differ("simulate", "text.v", "run.json")
        if wrong:
            return wrong
    return changed_report(pair, report)


def changed_report(pair, report):
    """A report with one word changed is checked."""
    lines = report.split("\n")
    at = random.randrange(len(lines))
    words = lines[at].split(" ")
    words[random.randrange(len(words))] = random.choice(["0", "1", "-1", "x", "70368744177665", ""])
    lines[at] = " ".join(words)
    pair.give("report", "\n".join(lines))
    return pair.differ("check", "source.maxj", "table.json", "report")


def random_program(pair):
    source = program_maker.any_program(random_programs.steps_of)
    return compile_and_check(pair, source, json.dumps(random_programs.any_table()))


def texts(pair):
    """The texts of bench/texts, under a run file that fits none of them and one that fits some."""
    runs = ['{"ticks": {"Double": 3}, "inputs": {"x": "x.txt"}, "outputs": {"y": "y.txt"}, "edges": 20}', "{}"]
    for path in sorted((TOP / "bench/texts").glob("*.v")):
        for run in runs:
            pair.clear()
            pair.give("text.v", path.read_bytes())
            pair.give("run.json", run)
            pair.give("x.txt", "1\n2\n3\n")
            wrong = pair.differ("simulate", "text.v", "run.json")
            if wrong:
                return wrong
    return None


def first_difference(pair, count):
    for source, table in fixed_sources():
        wrong = compile_and_check(pair, source, table)
        if wrong:
            return f"{wrong}, of\n{source}"
    for number in range(count):
        wrong = random_project(pair) or random_program(pair)
        if wrong:
            return f"{wrong}, of random source {number}:\n{(pair.folders[0] / 'source.maxj').read_text()}"
    return texts(pair)


def main():
    if len(sys.argv) < 3:
        sys.exit(__doc__)
    count = int(sys.argv[3]) if len(sys.argv) > 3 else 200
    random.seed(int(sys.argv[4]) if len(sys.argv) > 4 else 1)
    with tempfile.TemporaryDirectory() as folder:
        pair = Pair(sys.argv[1], sys.argv[2], pathlib.Path(folder))
        wrong = first_difference(pair, count)
        if wrong:
            print(wrong)
            return 1
        runs = ", ".join(f"{name} {pair.counted[name]}" for name in sorted(pair.counted))
        print(f"{count} random projects, {count} random constructors and the repository's sources: both say and write the same ({runs})")
    return 0


if __name__ == "__main__":
    sys.exit(main())
