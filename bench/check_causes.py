#!/usr/bin/env python3
"""Whether each refusal code of each command, produced once by the program, is explained: with a place, a cause that holds, and a remedy.

- each case of bench/refusal_cases.py by each of its commands; each row of docs/REFUSALS.md has one for each command that says it;
- each habit of MaxJ and Java in bench/maxj_habits.txt: its refusal has a hint, and what the hint says to write instead is compiled;
- each worked source of bench/building_sources.txt that is refused by a code E: which cause holds is told; of random sources that break the
  grammar, tokens that may stand at the place;
- files that can't be opened, want of words, and `unguarded` and `unbalanced` runs.

    bench/check_causes.py              ends with status 1 where something is wrong; passed over where the program isn't built here
    bench/check_causes.py CODE ..      the cases of these codes alone
"""
import json
import os
import pathlib
import re
import subprocess
import sys
import tempfile

import building_run
import cause_trials
import refusal_cases
import report_rules
from refusal_cases import COPY, ONE, RUN, VERILOG, Case, whole
from trials import PROGRAM, TOP

sys.path.insert(0, str(TOP / "tools"))

import explain
import refusal_rows

WORDS = {
    "compile": ["compile", "k.maxj", "t.json", "o.v", "o.report"],
    "check": ["check", "k.maxj", "t.json", "r.report"],
    "expect": ["expect", "k.maxj", "t.json", "r.report", "run.json"],
    "simulate": ["simulate", "top.v", "run.json"],
}
HABITS = TOP / "bench/maxj_habits.txt"
PLACE = re.compile(r"([^:]*):(\d+):(\d+): refused (\w+)")


def says(*words):
    """The status of the program and what it says; no status where it takes too long."""
    try:
        ran = subprocess.run([PROGRAM, *words], capture_output=True, timeout=120)
    except subprocess.TimeoutExpired:
        return None, "nothing within 120 seconds"
    return ran.returncode, ran.stdout.decode()


def put(name, text):
    pathlib.Path(name).write_bytes(text.encode("latin-1"))


def lay_out(case):
    """Writes the files of a case to the folder that this runs in."""
    source = whole(case.source) or whole(COPY)
    put("k.maxj", source.removeprefix("|"))
    put("t.json", case.table)
    put("x.txt", case.words)
    put("run.json", case.run)
    put("top.v", case.text or VERILOG)
    put("r.report", "")
    if case.commands != ("compile",) and "expect" in case.commands + ("expect",) * (case.report is not None):
        lay_out_report(case)


def lay_out_report(case):
    """The report of a source that is compiled, changed as the case says."""
    says(*WORDS["compile"])
    report = pathlib.Path("o.report").read_text() if os.path.exists("o.report") else ""
    if case.code == "P6":  # `compile` refuses it, so the report is made here
        built = building_run.build(case.source)
        problems = [report_rules.Problem(name, calls, json.loads(case.table)) for name, calls in built.kernels]
        report = report_rules.text_of([problem.least_part() for problem in problems]).decode()
    if case.report:
        old, new = case.report
        if old not in report:
            raise ValueError(f"{case.said}: the report has no {old!r}, but {report!r}")
        report = report.replace(old, new, 1)
    put("r.report", report)


def wrong_case(case, command):
    """What is wrong of what is told of a refusal."""
    words = WORDS[command]
    status, said = says(*words)
    code, *values = case.said.split()
    line = said.rstrip("\n")
    rest = line.split()[2:]
    if status != 1 or line.split()[:2] != ["refused", code] or any(value not in rest for value in values):
        return f"the program says {line!r} and ends with {status}"
    told = explain.explained(line, words)
    text = " ".join(" ".join(told).split())
    place = PLACE.match(told[0]) if told else None
    if not place:
        return f"no place: {told[:1]}"
    shown = pathlib.Path(place[1]).read_bytes().decode("latin-1").split("\n")[int(place[2]) - 1][int(place[3]) - 1 :]
    if not shown.startswith(case.at):
        return f"the place is that of {shown[:30]!r}, and not of {case.at!r}"
    cause, _, remedy = text.partition("What to do: ")
    missing = [part for part, where in ((case.cause, cause), (case.remedy, remedy)) if part.lower() not in where.lower() or not where]
    missing += [part for part in case.more if part not in text]
    return f"{missing} isn't told, but {text}" if missing else None


def wrong_cases(codes=()):
    for case in refusal_cases.CASES:
        if codes and case.code not in codes:
            continue
        for name in ("o.report", "o.v", "y.txt"):
            pathlib.Path(name).unlink(missing_ok=True)
        lay_out(case)
        for command in case.commands:
            wrong = wrong_case(case, command)
            if wrong:
                yield f"{command}: {case.said}: {wrong}"


def missing_codes():
    """The rows of the page without a case, and what each command can say."""
    told = {case.said.split()[0] for case in refusal_cases.CASES}
    yield from (f"{entry.code}: no case" for entry in refusal_rows.entries() if entry.code not in told)
    for letters, command in (("STEGPLC", "compile"), ("STEGPL", "check"), ("STEGPLUXQ", "expect"), ("VU", "simulate"), ("BC", "compile"), ("Q", "check")):
        for entry in refusal_rows.entries():
            codes = {case.code for case in refusal_cases.CASES if command in case.commands}
            if entry.code[0] in letters and entry.code not in codes and (command, entry.code) not in (("check", "P6"),):
                yield f"{entry.code}: no case of {command}"


# Habits


def habits():
    """(name, source, hint, what is written instead) of each habit."""
    for part in re.split(r"^# ", HABITS.read_text(), flags=re.M)[1:]:
        head, body = part.split("\n", 1)
        name, hint = head.split(" | ", 1)
        refused, _, instead = body.partition("--\n")
        yield name, refused.strip("\n"), hint, instead.strip("\n")


def habit_source(body):
    return body + "\n" if "class " in body else refusal_cases.PASS.replace('\n    DFEVar x = io.input("x", dfeUInt(8));', "") % body


def wrong_habits():
    put("t.json", refusal_cases.ZERO)
    for name, refused, hint, instead in habits():
        put("k.maxj", habit_source(refused))
        status, said = says(*WORDS["compile"])
        told = " ".join(" ".join(explain.explained(said, WORDS["compile"])).split())
        if status != 1 or hint not in told.partition("What to do: ")[2]:
            yield f"{name}: {said.strip()}: {hint} isn't told, but {told}"
        put("k.maxj", habit_source(instead))
        status, said = says(*WORDS["compile"])
        if status:
            yield f"{name}: what is to be written instead isn't compiled: {said.strip()}, {explain.explained(said, WORDS['compile'])}"


# Statuses without a refusal


def stopped(words, status, said):
    return " ".join(explain.told(status, said, words))


def wrong_stops():
    lay_out(Case("", COPY, table=ONE))
    put("r.report", pathlib.Path("o.report").read_text())
    folder = {"OUT": "no/o.v", "FILE": "none"}
    trials = [
        (["compile", folder["FILE"], "t.json", "o.v", "o.report"], 3, ["none: SRC can't be opened: there is no such file"]),
        (["compile", "k.maxj", ".", "o.v", "o.report"], 3, [".: TABLE can't be opened: it is a folder"]),
        (["compile", "k.maxj", "t.json", folder["OUT"], "o.report"], 4, ["no/o.v: OUT can't be opened: there is no folder no"]),
        (["check", "k.maxj", "t.json", "none"], 3, ["none: REPORT can't be opened"]),
        (["simulate", "top.v", "none"], 3, ["none: RUN can't be opened"]),
        (["simulate", "top.v", "in.json"], 3, ["none.txt: the file of the input `x` that in.json names can't be opened"]),
        (["expect", "k.maxj", "t.json", "r.report", "in.json"], 3, ["none.txt: the file of the input `x`"]),
        (["simulate", "top.v", "out.json"], 4, ["no/y.txt: the file of the output `y` that out.json names can't be opened: there is no folder no"]),
        (["simulate", "o.v", "run.json"], 0, []),
        (["simulate", "o.v", "few.json"], 6, ["`done` was never 1", "output y: 0 words in y.txt, fewer than the run's 3 ticks", "raise `edges`"]),
        (["simulate", "o.v", "dry.json"], 6, ["input x: only 3 words in x.txt, for up to 5 ticks", "give `x` a word for each tick"]),
    ]
    put("in.json", RUN.replace("x.txt", "none.txt"))
    put("out.json", RUN.replace("y.txt", "no/y.txt"))
    put("few.json", RUN.replace("100", "1"))
    put("dry.json", RUN.replace('"K": 3', '"K": 5'))
    for words, wanted, parts in trials:
        status, said = says(*words)
        told = stopped(words, status, said)
        if status != wanted or not all(part in told for part in parts):
            yield f"{words}: status {status}, {told}, and not {parts}"
    if "memory" not in stopped(WORDS["compile"], 5, ""):
        yield "want of memory isn't told"


GUARD = 'DFEVar was = stream.offset(x, -1) === 0;\nio.output("y", x, dfeUInt(8), was);'
RATES = refusal_cases.manager(
    'KernelBlock a = addKernel(new A(makeKernelParameters("A")));\nKernelBlock d = addKernel(new D(makeKernelParameters("D")));\n'
    'a.getInput("x") <== addStreamFromCPU("x");\nd.getInput("x") <== a.getOutput("y");\naddStreamToCPU("y") <== d.getOutput("y");'
) + """class D extends Kernel {
  D(KernelParameters p) {
    super(p);
    DFEVar at = control.count.simpleCounter(2);
    DFEVar x = io.input("x", dfeUInt(8), at === 0);
    io.output("y", x, dfeUInt(8), at === 0);
  }
}
"""


def wrong_outcomes():
    for source, ticks, parts in (
        (GUARD, '"K": 3', ["k.maxj:6", "unguarded", "node 4, output y: k.maxj:6:", "its control: k.maxj:5:"]),
        (RATES, '"A": 2000, "D": 2000', ["unbalanced", "link 0, from A.y to D.x: k.maxj:", "runs full"]),
    ):
        lay_out(Case("", source, run=RUN.replace('"K": 3', ticks), words="1\n" * 2000, commands=("expect",)))
        status, said = says(*WORDS["expect"])
        told = stopped(WORDS["expect"], status, said)
        if status or not all(part in told for part in parts):
            yield f"an outcome: {said!r}, {told}, and not {parts}"


def main():
    if not PROGRAM.exists():
        print("check_causes: the program isn't built here, passed over")
        return 0
    found, codes = [*missing_codes(), *cause_trials.wrong_causes(), *cause_trials.wrong_expectations()], sys.argv[1:]
    with tempfile.TemporaryDirectory() as folder:
        os.chdir(folder)
        found += wrong_cases(codes)
        for wrong in () if codes else (wrong_habits, wrong_stops, wrong_outcomes):
            found += wrong()
        os.chdir(TOP)
    for line in found:
        print(line)
    count = sum(len(case.commands) for case in refusal_cases.CASES)
    print(f"check_causes: {count} refusals, {len(list(habits()))} habits of MaxJ, {len(found)} told wrongly")
    return 1 if found else 0


if __name__ == "__main__":
    sys.exit(main())
