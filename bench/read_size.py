#!/usr/bin/env python3
"""Time and memory of reading Verilog texts.

Texts of growing size up to 2^26 bytes are read by `maxjc simulate` with a run file that is no JSON, so
that the command ends with `refused U1` once the text is read. One text is of assignments as they are
printed, one is of the shortest assignments that there are, which has the most tokens and nets a byte.
Memory is the greatest resident set of the program; the bar is 40 bytes a byte of text.

    bench/read_size.py [EXPONENT]
"""
import os
import pathlib
import sys
import tempfile

import compile_size
import simulate_speed
import trials

BAR = 40


def filled(size, output, line_of, end):
    """A text of so many bytes: the head, the output's assignment, as many lines as fit, the end, and blanks."""
    lines = [simulate_speed.HEAD, output]
    length, number = sum(map(len, lines)) + len(end), 0
    while True:
        line = line_of(number)
        if length + len(line) > size:
            return "".join(lines) + end + " " * (size - length)
        lines.append(line)
        length, number = length + len(line), number + 1


def printed(size):
    def line_of(number):
        return f"wire [31:0] w{number};\nassign w{number} = in$x$data + in$x$data;\n"

    return filled(size, "assign out$y$data = in$x$data;\n", line_of, "endmodule\n")


def dense(size):
    def line_of(number):
        name = compile_size.name_of(number)
        return f"wire[0:0]{name};assign {name}=go;"

    return filled(size, "assign out$y$data=in$x$data;", line_of, "endmodule")


def measure(text):
    with tempfile.TemporaryDirectory() as work:
        path = os.path.join(work, "text.v")
        pathlib.Path(path).write_text(text)
        run = os.path.join(work, "run.json")
        pathlib.Path(run).write_text("[")
        _, said, seconds, memory = compile_size.watched(["simulate", path, run], work)
        return said, seconds, memory


def main():
    top = int(sys.argv[1]) if len(sys.argv) > 1 else 26
    trials.build()
    bad = False
    for kind, make in [("printed", printed), ("dense", dense)]:
        for exponent in (top - 4, top - 2, top):
            size = 1 << exponent
            said, seconds, memory = measure(make(size))
            bad |= said != "refused U1" or memory > BAR * size + 2**26
            print(f"{kind}, {size} bytes: {said}, {seconds:.2f} s, {memory / 2**20:.0f} MiB, {memory / size:.1f} bytes a byte")
    return 1 if bad else 0


if __name__ == "__main__":
    sys.exit(main())
