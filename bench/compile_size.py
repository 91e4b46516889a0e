#!/usr/bin/env python3
"""Time and memory of `maxjc compile` on large sources.

Sources of growing size: one of a comment behind a small kernel, one of as many locals as fit or as a
run may declare (each a further name of an earlier variable, with the names mixed and in the order of the
alphabet, which is the worst for the map of names), one of as many statements `x=x;` as fit in a method
that isn't called, of which every byte is a token, and one of 510 operators. Memory is the greatest resident set of the program less that of an empty run, as a multiple of
the file. The bar is 10 seconds for a file of 16 MiB, and time and memory that grow with the file.

    bench/compile_size.py
"""
import os
import pathlib
import random
import subprocess
import sys
import tempfile
import time

import trials
from trials import TOP

HEAD = "class Big extends Kernel { Big(KernelParameters p) { super(p);\n"
INPUT = 'DFEVar x = io.input("x", dfeUInt(32));\n'
TAIL = 'io.output("y", %s, dfeUInt(32)); } }\n'
BAR = 10  # seconds
MOST_LOCALS = 490_000  # each takes two of the 1,000,000 steps of a run
LETTERS = "abcdefghijklmnopqrstuvwxyzABCDEFGHIJKLMNOPQRSTUVWXYZ_"


def comment(size):
    source = HEAD + INPUT + TAIL % "x + x" + "/*"
    return source + "*" * (size - len(source) - 1) + "/"


def statements(size):
    head, tail = HEAD + INPUT + TAIL.replace("} }\n", "} void f() {") % "x", "} }"
    count = (size - len(head) - len(tail)) // len("x=x;")
    source = head + "x=x;" * count + tail
    return source + " " * (size - len(source))


def name_of(number):
    name = ""
    while True:
        name = LETTERS[number % len(LETTERS)] + name
        number //= len(LETTERS)
        if number == 0:
            return "z" + name


def locals_to(size, mixed=True):
    """As many locals as fit, in a mixed order of their names or in the order of the alphabet."""
    lines, length = [], len(HEAD + INPUT + TAIL % "x")
    while True:
        line = "DFEVar %s=x;" % name_of(len(lines))
        if length + len(line) > size or len(lines) == MOST_LOCALS:
            break
        lines.append(line)
        length += len(line)
    if mixed:
        random.Random(1).shuffle(lines)
    source = HEAD + INPUT + "".join(lines) + TAIL % "x"
    return source + " " * (size - len(source))


def locals_in_order(size):
    return locals_to(size, mixed=False)


def operators(count):
    return HEAD + INPUT + TAIL % ("x" + " + x" * count)


def measure(source):
    with tempfile.TemporaryDirectory() as work:
        path = os.path.join(work, "source.maxj")
        pathlib.Path(path).write_text(source)
        return watched(["compile", path, str(TOP / "examples/tables/zero.json"), os.path.join(work, "out.v"), os.path.join(work, "out.report")], work)


def watched(words, folder, most_seconds=None):
    """Runs the program on these words in the folder: its status, what it says, its seconds, and its greatest resident set in
    bytes. It is stopped where it takes longer than it may, and then has no status."""
    before = time.time()
    process = subprocess.Popen([str(trials.PROGRAM), *words], cwd=folder, stdout=subprocess.PIPE)
    memory, late = 0, False
    while process.poll() is None:
        memory = max(memory, high_water(process.pid))
        if not late and most_seconds is not None and time.time() - before > most_seconds:
            late = True
            process.kill()
        time.sleep(0.0005)
    seconds = time.time() - before
    return None if late else process.returncode, process.stdout.read().decode().strip(), seconds, memory


def high_water(pid):
    """The greatest resident set of a process so far, in bytes; 0 where it is gone."""
    try:
        for line in pathlib.Path(f"/proc/{pid}/status").read_text().splitlines():
            if line.startswith("VmHWM:"):
                return int(line.split()[1]) * 1024
    except (OSError, ProcessLookupError):
        pass
    return 0


def main():
    trials.build()
    base = measure(operators(1))[3]
    print(f"the program with a small source: {base / 2**20:.1f} MiB")
    bad = False
    for kind, make in [("comment", comment), ("locals", locals_to), ("locals in order", locals_in_order), ("statements", statements)]:
        for exponent in (22, 24):
            size = 1 << exponent
            status, said, seconds, memory = measure(make(size))
            bad |= said != "kernel Big fifo 0" or seconds > BAR
            print(f"{kind} {size} bytes: status {status}, {said}, {seconds:.2f} s, {memory / 2**20:.1f} MiB, {(memory - base) / size:.2f} times the file")
    for count in (1, 510):
        status, said, seconds, memory = measure(operators(count))
        bad |= said != "kernel Big fifo 0"
        print(f"{count} operators: status {status}, {said}, {seconds:.3f} s, {memory / 2**20:.1f} MiB")
    sys.exit(1 if bad else 0)


if __name__ == "__main__":
    main()
