#!/usr/bin/env python3
"""Compares `maxjc simulate` with Icarus.

Each example is compiled, by a table by which no operation takes a tick, by the one by which its page compiles it and by one with
latencies, where it has a schedule by that one; then the text is run by `maxjc simulate` and by Icarus under a
testbench with the same offers, accepts and holds, without stalls and under several patterns of stalls, until it is done. The words
that leave must be those of the stream equations, and the same where they are undefined too; the line that says how the run ended
must be the same. Passed over where Icarus is missing.

    bench/icarus_words.py
"""
import json
import pathlib
import shutil
import subprocess
import sys
import tempfile

import building_run
import example_page
import testbench
from project_streams import ProjectStreams
from trials import PROGRAM, TOP, build

EDGES = 20_000  # in which each example is done, also with stalls
ZERO, PIPELINED = TOP / "examples/tables/zero.json", TOP / "examples/tables/pipelined.json"


def run(words, **kinds):
    return subprocess.run([str(word) for word in words], capture_output=True, text=True, **kinds)


def icarus(text, spec, work, edges):
    """What Icarus leaves of a run whose files stand in the folder: the line that says how it ended, and the words of each output
    as they are written; or None and what the translator says."""
    spec = spec | {"inputs": {name: str(work / file) for name, file in spec["inputs"].items()}}
    bench, _, outputs = testbench.testbench(pathlib.Path(text).read_text(), spec, work, edges)
    built = run(["iverilog", "-g2005", "-s", "testbench", "-o", work / "sim.vvp", bench, text])
    if built.returncode != 0:
        return None, built.stderr
    shown = run(["vvp", "-n", work / "sim.vvp"]).stdout
    last = [line for line in shown.splitlines() if "edges" in line]
    return last, {name: (work / f"out{k}.txt").read_text().split() for k, (name, _) in enumerate(outputs)}


def differ(ours, theirs, wanted):
    """Whether words differ; an undefined one may be of bits that Icarus doesn't know."""
    unknown = {place for place, word in enumerate(wanted or []) if word is None}
    pairs = enumerate(zip(ours, theirs))
    return len(ours) != len(theirs) or any(a != b and not (place in unknown and "x" in b.lower()) for place, (a, b) in pairs)


def beside(words, wanted):
    """Whether words are the first of those that are wanted, of which undefined ones, None, may be any."""
    return len(words) <= len(wanted) and all(b is None or int(a, 16) == b for a, b in zip(words, wanted))


def compare(text, run_file, work, wanted=None):
    """The differences between the two tools on a text under a run file, whose files stand in the folder, and from the words
    that are wanted of each output, of which the words that leave are the first; and what `maxjc` says."""
    spec = testbench.read_run(run_file)
    said = run([PROGRAM, "simulate", text, run_file], cwd=work)
    if said.returncode not in (0, 6):
        return [f"maxjc ends with {said.returncode}: {said.stdout.strip()}"], said.stdout
    edges = min(spec["edges"], int(said.stdout.split()[-2]) + 1)
    last, left = icarus(text, spec, work, edges)
    if last is None:
        return [f"iverilog: {left}"], said.stdout
    wrong = [] if last == said.stdout.splitlines() else [f"maxjc says {said.stdout!r}, Icarus {last}"]
    for name, theirs in left.items():
        ours = (work / spec["outputs"][name]).read_text().split()
        words = wanted and wanted[name]
        if wanted is not None and not beside(ours, words):
            wrong.append(f"output {name}: maxjc {ours[:8]}, wanted {words[:8]}")
        if differ(ours, theirs, words):
            wrong.append(f"output {name}: maxjc {ours[:8]} ({len(ours)} words), Icarus {theirs[:8]} ({len(theirs)} words)")
    return wrong, said.stdout


def wanted_of(source, spec):
    """The words of each output by the stream equations, None where one is undefined."""
    words = {stream: [int(line, 16) for line in (TOP / file).read_text().split()] for stream, file in spec["inputs"].items()}
    scalars = {}
    for scalar, word in spec.get("scalars", {}).items():
        kernel, name = scalar.split(".")
        scalars.setdefault(kernel, {})[name] = int(word, 16)
    return ProjectStreams(building_run.build(source.read_text()), spec["ticks"], words, scalars).outputs()


def tables_of(source):
    """The tables by which an example is compiled, each once."""
    return list(dict.fromkeys([ZERO, example_page.tables().get(source.parent.name, ZERO), PIPELINED]))


def compared(source, table, pattern, wanted):
    """What is wrong of an example by a table under a pattern, by the words that are wanted; None where it has no schedule by
    that table."""
    with tempfile.TemporaryDirectory() as folder:
        work = pathlib.Path(folder)
        shutil.copytree(TOP / "examples", work / "examples")
        text = work / "text.v"
        done = run([PROGRAM, "compile", source, table, text, work / "report"])
        if done.stdout.startswith("refused C2") and table == PIPELINED:
            return None
        if done.returncode != 0:
            return [f"not compiled: {done.stdout.strip()}"]
        spec = testbench.read_run(source.parent / "run.json") | {"pattern": pattern, "edges": EDGES}
        (work / "run.json").write_text(json.dumps(spec))
        wrong, said = compare(text, work / "run.json", work, wanted)
        if not wrong and not said.startswith("done"):
            wrong = [said.strip()]
        return wrong


def main():
    if shutil.which("iverilog") is None:
        print("Icarus is not installed here, passed over")
        return 0
    build()
    bad = False
    for source in sorted(TOP.glob("examples/*/*.maxj")):
        wanted = wanted_of(source, testbench.read_run(source.parent / "run.json"))
        for table in tables_of(source):
            for pattern in (0, 1, 2, 77):
                wrong = compared(source, table, pattern, wanted)
                bad |= bool(wrong)
                told = "no schedule" if wrong is None else "; ".join(wrong) or "the same words"
                print(f"{source.name}, {table.name}, pattern {pattern}: {told}")
    return 1 if bad else 0


if __name__ == "__main__":
    sys.exit(main())
