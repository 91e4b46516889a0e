#!/usr/bin/env python3
"""Time and memory of `maxjc simulate` on the largest designs, each simulated or refused in seconds.

A chain: 2^20 assignments in one module, each of which reads the one before, written last first; the words that
leave are known. Doubling modules: 1,000 modules, each with two instances of the one before, whose cells are
too many to be counted in 64 bits; they are refused with the greatest such number. Most cells: a memory with
which the design has the 2^26 cells (wires, registers and memory words) that are simulated; with one word more it
is refused. The words that leave are checked. Memory is the greatest resident set of the program.

    bench/check_size.py [EXPONENT]      with 2^EXPONENT assignments in the chain
"""
import json
import pathlib
import sys
import tempfile

import compile_size
import simulate_speed
import trials

MODULES = 1000
MOST_CELLS = 2**26
NETS_OF_HEAD = 12  # the ports and `go`
EDGES = 10
SIMULATED = f"not done after {EDGES} edges"
# Seconds: a design that is simulated, one that is refused.
BAR, REFUSAL_BAR = 60, 2


def chain(assignments):
    """A text whose output is the input times one more than the assignments."""
    names = [compile_size.name_of(number) for number in range(assignments)]
    wires = "".join(f"wire [31:0] {name};\n" for name in names)
    before = ["in$x$data"] + names
    sums = [f"assign {name} = {before[number]} + in$x$data;\n" for number, name in enumerate(names)]
    return simulate_speed.HEAD + wires + "".join(reversed(sums)) + f"assign out$y$data = {names[-1]};\nendmodule\n"


def doubling(modules):
    ports = "(input wire [0:0] clk, input wire [0:0] reset, input wire [31:0] a, output wire [31:0] b);\n"
    text = f"module m0 {ports}assign b = ~a;\nendmodule\n"
    for number in range(1, modules):
        text += f"module m{number} {ports}wire [31:0] c;\n"
        text += "".join(instance(f"m{number - 1}", *joined) for joined in [("i", "a", "c"), ("j", "c", "b")])
        text += "endmodule\n"
    return text + simulate_speed.HEAD + instance(f"m{modules - 1}", "i", "in$x$data", "out$y$data") + "endmodule\n"


def instance(module, name, a, b):
    return f"{module} {name} (.clk(clk), .reset(reset), .a({a}), .b({b}));\n"


def cells(count):
    """A text of so many cells, most of them words of a memory of one bit that is written and read."""
    storage = f"reg [0:0] m [0:{count - NETS_OF_HEAD - 3}];\nwire [0:0] put;\nwire [0:0] got;\n"
    reads = "assign put = in$x$data[0:0];\nassign got = m[in$x$data];\nassign out$y$data = {32{got}};\n"
    return simulate_speed.HEAD + storage + reads + "always @(posedge clk) begin\nif (go) m[in$x$data] <= put;\nend\nendmodule\n"


def holds(kind, text, words, wanted, wanted_words, most_seconds, most_memory=None):
    """Simulates the text over the words, prints a line, and answers whether all is as wanted, in time and in these bytes."""
    with tempfile.TemporaryDirectory() as folder:
        work = pathlib.Path(folder)
        (work / "text.v").write_text(text)
        (work / "x.txt").write_text("".join(f"{word:x}\n" for word in words))
        run = {"ticks": {"K": EDGES}, "inputs": {"x": "x.txt"}, "outputs": {"y": "y.txt"}, "edges": EDGES}
        (work / "run.json").write_text(json.dumps(run))
        status, said, seconds, memory = compile_size.watched(["simulate", "text.v", "run.json"], work, most_seconds)
        left = (work / "y.txt").read_text().split() if (work / "y.txt").exists() else []
    good = said == wanted and [int(word, 16) for word in left] == wanted_words
    good &= most_memory is None or memory <= most_memory
    ended = f"{said}, status {status}" if status is not None else f"stopped after {most_seconds} s"
    seen = f"{memory / 2**20:.0f} MiB" if memory else "over before its memory was seen"
    print(f"{kind}, {len(text)} bytes: {ended}, {seconds:.2f} s, {seen}" + ("" if good else f", NOT as wanted: {left}"))
    return good


def main():
    assignments = 2 ** (int(sys.argv[1]) if len(sys.argv) > 1 else 20)
    trials.build()
    words = [2**32 - 1 - 0x1234567 * number for number in range(EDGES)]
    products = [word * (assignments + 1) % 2**32 for word in words]
    place = [MOST_CELLS - 101] * EDGES  # an odd place, so a 1 is written there
    ones = [0] + [2**32 - 1] * (EDGES - 1)
    refused, refused_by_one = f"refused V5 {2**64 - 1}", f"refused V5 {MOST_CELLS + 1}"
    good = [
        holds(f"a chain of {assignments} assignments", chain(assignments), words, SIMULATED, products, BAR),
        holds(f"{MODULES} doubling modules", doubling(MODULES), words, refused, [], REFUSAL_BAR),
        holds(f"a design of {MOST_CELLS} cells", cells(MOST_CELLS), place, SIMULATED, ones, BAR),
        holds("one cell more", cells(MOST_CELLS + 1), place, refused_by_one, [], REFUSAL_BAR),
    ]
    return 0 if all(good) else 1


if __name__ == "__main__":
    sys.exit(main())
