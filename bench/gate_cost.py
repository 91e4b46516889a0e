#!/usr/bin/env python3
"""Processor seconds that the gate takes, crate by crate: the proof of the crate, the proof and build of its tests,
its must-fail edits.

Runs `rt ci` (or the command that is given) and looks every fifth of a second at the processes below it. A check
says on its command line which crate it is of and whether it is of the tests, and an edit is checked in a folder of
its own. What an earlier run on the machine proved costs nothing here, so on a new machine the table is that of the
gate from nothing. The table is written to the file behind `--table`, or after the run's own lines; the run's exit
status is kept. Behind `--most` stand the seconds that all may take together, and behind `--dearest` those that one edit may
take in the mean of its crate: where the run passed and one of them is exceeded, that is said, and the status is 1.

    bench/gate_cost.py [--table docs/GATE.md] [--most SECONDS] [--dearest SECONDS] [COMMAND ..]
"""
import argparse
import collections
import os
import pathlib
import subprocess
import sys
import time

TOP = pathlib.Path(__file__).resolve().parent.parent
TICKS = os.sysconf("SC_CLK_TCK")
PAUSE = 0.2
KINDS = ("proof", "tests", "edits")
HEAD = """# What the gate costs

Processor seconds of `.ci/run`'s `rt ci`, crate by crate, as `bench/gate_cost.py --table docs/GATE.md` measured them in
one run{note}. `proof` is the check of the crate, `tests` the check of its tests, for which the crate's own functions are
checked again, and `edits` the must-fail edits.

| crate | proof | tests | edits | all |
|---|---|---|---|---|
"""


def descendants(root):
    """The processes below this one, with the fields of their `stat`."""
    parents, fields = {}, {}
    for entry in os.listdir("/proc"):
        if not entry.isdigit():
            continue
        try:
            text = pathlib.Path(f"/proc/{entry}/stat").read_text()
        except OSError:
            continue
        rest = text.rsplit(")", 1)[1].split()
        parents[int(entry)] = int(rest[1])
        fields[int(entry)] = rest
    below = set()
    for pid in parents:
        way, at = [], pid
        while at in parents and at not in below and at != root:
            way.append(at)
            at = parents[at]
        if at == root or at in below:
            below.update(way)
    return {pid: fields[pid] for pid in below}


def told(pid):
    """The crate of a check and what is checked, or nothing for another process."""
    try:
        words = pathlib.Path(f"/proc/{pid}/cmdline").read_bytes().decode(errors="replace").split("\0")
        folder = os.readlink(f"/proc/{pid}/cwd")
    except OSError:
        return None
    if "--crate-name" not in words:
        return None
    crate = words[words.index("--crate-name") + 1]
    if "rt-edit" in folder:
        return crate, "edits"
    return crate, "tests" if "--test" in words else "proof"


def measured(command):
    """Runs the command; its exit status, and the seconds by crate and kind."""
    seconds = {}
    kinds = {}
    run = subprocess.Popen(command)
    while run.poll() is None:
        for pid, stat in descendants(run.pid).items():
            key = (pid, stat[19])  # with the time of its start
            if key not in kinds:
                kinds[key] = told(pid)
            if kinds[key]:
                seconds[key] = (int(stat[11]) + int(stat[12])) / TICKS
        time.sleep(PAUSE)
    sums = collections.defaultdict(lambda: dict.fromkeys(KINDS, 0.0))
    for key, spent in seconds.items():
        crate, kind = kinds[key]
        sums[crate][kind] += spent
    return run.returncode, sums


def table(sums, wall):
    """The table, the crates that cost most first."""
    whole = {kind: sum(row[kind] for row in sums.values()) for kind in KINDS}
    rows = sorted(sums.items(), key=lambda item: -sum(item[1].values()))
    rows.append(("**all**", whole))
    lines = [
        f"| {name} | " + " | ".join(f"{row[kind]:.0f}" for kind in KINDS) + f" | {sum(row.values()):.0f} |"
        for name, row in rows
    ]
    note = f" of {wall / 60:.0f} minutes on {os.cpu_count()} processors"
    return HEAD.format(note=note) + "\n".join(lines) + "\n"


def edits_of(crate):
    """How many must-fail edits a crate has; at least one, so that it can be divided by."""
    return max(1, len(list((TOP / "crates" / crate / "must-fail").glob("*.edit"))))


def excesses(sums, most, dearest):
    """What takes more than it may, line by line."""
    whole = sum(sum(row.values()) for row in sums.values())
    if most is not None and whole > most:
        yield f"all takes {whole:.0f} processor seconds, and may take {most:.0f}"
    for crate, row in sorted(sums.items()):
        each = row["edits"] / edits_of(crate)
        if dearest is not None and each > dearest:
            yield f"an edit of {crate} takes {each:.0f} processor seconds, and may take {dearest:.0f}"


def words_given():
    parser = argparse.ArgumentParser(description="Processor seconds of the gate, crate by crate.")
    parser.add_argument("--table", type=pathlib.Path)
    parser.add_argument("--most", type=float)
    parser.add_argument("--dearest", type=float)
    parser.add_argument("command", nargs=argparse.REMAINDER)
    return parser.parse_args()


def main():
    given = words_given()
    begin = time.monotonic()
    status, sums = measured(given.command or ["rt", "ci"])
    text = table(sums, time.monotonic() - begin)
    if given.table:
        given.table.write_text(text)
    else:
        print(text)
    over = list(excesses(sums, given.most, given.dearest))
    for line in over:
        print(line)
    sys.exit(status or (1 if over else 0))


if __name__ == "__main__":
    main()
