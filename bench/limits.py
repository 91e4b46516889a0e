#!/usr/bin/env python3
"""What the built program does at its limits of size, and where the system takes no more bytes: the status, the line
that is said, and the files that are left. The wanted values are those of docs/FORMATS.md and docs/REFUSALS.md.

    bench/limits.py
"""
import json
import os
import pathlib
import subprocess
import sys
import tempfile

import check_size
import trials

MOST_TEXT, MOST_OTHER = 64 * 2**20, 16 * 2**20
TABLE = trials.TOP / "examples/tables/zero.json"
SOURCE = trials.TOP / "examples/double/double.maxj"
FULL = "/dev/full"
MOST_BACK = 2**20  # ticks of one offset


def run_file(**changed):
    run = {"ticks": {"K": 2}, "inputs": {"x": "x.txt"}, "outputs": {"y": "y.txt"}, "edges": 2}
    return json.dumps(run | changed)


def padded(text, size):
    """The text with blanks behind it, so many bytes in all."""
    return text + " " * (size - len(text))


def back(ticks):
    """A kernel that adds a word of 128 bits to the one of so many ticks ago."""
    parts = [min(ticks - done, MOST_BACK) for done in range(0, ticks, MOST_BACK)]
    offsets = "".join(f"DFEVar v{k + 1} = stream.offset(v{k}, -{part});\n" for k, part in enumerate(parts))
    head = 'class K extends Kernel { K(KernelParameters p) { super(p);\nDFEVar v0 = io.input("x", dfeUInt(128));\n'
    return head + offsets + f'io.output("y", v0 + v{len(parts)}, dfeUInt(128)); }} }}\n'


def ended(folder, words, out=subprocess.PIPE):
    ran = subprocess.run([str(trials.PROGRAM), *map(str, words)], cwd=folder, stdout=out, stderr=subprocess.PIPE, timeout=120)
    said = (ran.stdout or b"").decode()
    return ran.returncode, said


def cases(folder):
    """Name, words, wanted status, wanted line."""
    source, text = SOURCE.read_text(), check_size.simulate_speed.HEAD + "assign out$y$data = in$x$data;\nendmodule\n"
    small = check_size.cells(check_size.MOST_CELLS + 1)
    for name, content in [
        ("source", padded(source, MOST_OTHER)),
        ("long_source", padded(source, MOST_OTHER + 1)),
        ("long_table", padded(TABLE.read_text(), MOST_OTHER + 1)),
        ("text", padded(text, MOST_TEXT)),
        ("long_text", padded(text, MOST_TEXT + 1)),
        ("cells", small),
        ("run", run_file()),
        ("long_run", padded(run_file(), MOST_OTHER + 1)),
        ("run_to_full", run_file(outputs={"y": FULL})),
        ("most_bits", back(2 * MOST_BACK)),
        ("more_bits", back(2 * MOST_BACK + 1)),
        ("x.txt", "1\n2\n"),
    ]:
        (folder / name).write_text(content)
    yield "a source of 2^24 bytes", ["compile", "source", TABLE, "out.v", "report"], 0, "kernel Double fifo 0\n"
    yield "a source of one byte more", ["compile", "long_source", TABLE, "o", "report"], 1, "refused F1 long_source\n"
    yield "a long table", ["compile", "source", "long_table", "o", "report"], 1, "refused F1 long_table\n"
    yield "a text of 2^26 bytes", ["simulate", "text", "run"], 6, "not done after 2 edges\n"
    yield "a text of one byte more", ["simulate", "long_text", "run"], 1, "refused F1 long_text\n"
    yield "a long run file", ["simulate", "text", "long_run"], 1, "refused F1 long_run\n"
    yield "one cell too many", ["simulate", "cells", "run"], 1, f"refused V5 {check_size.MOST_CELLS + 1}\n"
    yield "FIFOs of 2^28 bits", ["compile", "most_bits", TABLE, "out.v", "report"], 0, f"kernel K fifo {2**28}\n"
    yield "FIFOs of 128 bits more", ["compile", "more_bits", TABLE, "o", "report"], 1, f"refused B1 K {2**28 + 128}\n"
    yield "a source that isn't there", ["compile", "none", TABLE, "o", "report"], 3, ""
    yield "a name that is no path", ["compile", "a\n/b", TABLE, "o", "report"], 3, ""
    yield "a text onto a full device", ["compile", "source", TABLE, FULL, "report"], 4, ""
    yield "words onto a full device", ["simulate", "text", "run_to_full"], 4, ""


def full_output(folder):
    """A line that can't be said: the status."""
    with open(FULL, "wb") as full:
        yield "a summary onto a full device", ended(folder, ["compile", "source", TABLE, "out.v", "report"], full)[0], 4
        yield "a refusal onto a full device", ended(folder, ["compile", "long_source", TABLE, "o", "report"], full)[0], 4
        yield "the usage onto a full device", ended(folder, [], full)[0], 4


def main():
    if not trials.PROGRAM.exists():
        print("the program isn't built here, passed over")
        return 0
    bad = 0
    with tempfile.TemporaryDirectory() as work:
        folder = pathlib.Path(work)
        for name, words, status, line in cases(folder):
            seen = ended(folder, words)
            if seen != (status, line):
                print(f"{name}: wanted {status, line}, saw {seen}")
                bad += 1
        if os.path.exists(FULL):
            for name, seen, status in full_output(folder):
                if seen != status:
                    print(f"{name}: wanted status {status}, saw {seen}")
                    bad += 1
        if (folder / "o").exists():
            print("a refused command left an output")
            bad += 1
    print("limits of size and full devices: " + ("all as they must be" if not bad else f"{bad} WRONG"))
    return 1 if bad else 0


if __name__ == "__main__":
    sys.exit(main())
