#!/usr/bin/env python3
"""Time and memory of `maxjc compile` on kernels with long schedules, and of `maxjc check` on their reports.

A chain of 4,094 sums, each of the one before with itself, which with the input and the output has as many nodes as a kernel
may have; a filter of 64 taps of 32 bits; and a stencil over two lines, with offsets of 1,920 ticks both ways. Sums take one
tick and products three. Memory is the greatest resident set of the program. The FIFOs are to hold the bits that are named,
and `check` is to say of the report that `compile` wrote that these are the least.

    bench/compile_speed.py
"""
import json
import pathlib
import sys
import tempfile

import compile_size
import trials

HEAD = "class K extends Kernel { K(KernelParameters p) { super(p);\n"
TABLE = {"add": [[1, 1]], "mul": [[1, 3]]}
TIME_BAR, CHECK_BAR, MEMORY_BAR = 1.0, 0.1, 200 * 2**20
TRIES = 3


def chain(sums):
    body = f'DFEVar s = io.input("x", dfeUInt(8)); for (int i = 0; i < {sums}; i++) {{ s = s + s; }}\n'
    return HEAD + body + 'io.output("y", s, dfeUInt(8)); } }\n'


def taps(count):
    """A filter with a tap for each word of so many ticks up to now."""
    body = 'DFEVar x = io.input("x", dfeUInt(32)); DFEVar s = x * 1;\n'
    body += f"for (int i = 1; i < {count}; i++) {{ s = s + stream.offset(x, -i) * (2 * i + 1); }}\n"
    return HEAD + body + 'io.output("y", s, dfeUInt(32)); } }\n'


def stencil(line):
    """The sum of a word and those of a line before and a line later."""
    body = 'DFEVar x = io.input("x", dfeUInt(8));\n'
    body += f'io.output("y", stream.offset(x, -{line}) + x + stream.offset(x, {line}), dfeUInt(8)); }} }}\n'
    return HEAD + body


def measure(words, work):
    """What a command says, the least seconds of some tries, and the greatest memory."""
    tried = [compile_size.watched(words, work) for _ in range(TRIES)]
    return tried[0][1], min(seconds for _, _, seconds, _ in tried), max(memory for _, _, _, memory in tried)


def both(source, work):
    """What `compile` says of a source and its cost, what `check` says of the report and its cost, and the bytes of the text."""
    (work / "source.maxj").write_text(source)
    (work / "table.json").write_text(json.dumps(TABLE))
    compiled = measure(["compile", "source.maxj", "table.json", "out.v", "out.report"], work)
    checked = measure(["check", "source.maxj", "table.json", "out.report"], work)
    return compiled, checked, (work / "out.v").stat().st_size if compiled[0].startswith("kernel") else 0


def main():
    trials.build()
    bad = False
    for name, source, bits in [
        ("4,094 chained sums of 8 bits", chain(4094), 0),
        ("a filter of 64 taps of 32 bits", taps(64), 4000),
        ("a stencil of 8 bits over two lines of 1,920", stencil(1920), 30712),
    ]:
        with tempfile.TemporaryDirectory() as folder:
            (said, seconds, memory), (shown, check_seconds, check_memory), size = both(source, pathlib.Path(folder))
        good = said == f"kernel K fifo {bits}" and seconds <= TIME_BAR and memory <= MEMORY_BAR
        good &= shown == f"kernel K least {bits}" and check_seconds <= CHECK_BAR and check_memory <= MEMORY_BAR
        bad |= not good
        print(f"{name}: {said}, {seconds:.2f} s, {memory / 2**20:.0f} MiB, {size} bytes of text")
        print(f"    its report: {shown}, {check_seconds:.2f} s, {check_memory / 2**20:.0f} MiB" + ("" if good else ", NOT as wanted"))
    return 1 if bad else 0


if __name__ == "__main__":
    sys.exit(main())
