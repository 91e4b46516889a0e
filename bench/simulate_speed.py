#!/usr/bin/env python3
"""The speed of `maxjc simulate` beside Icarus (iverilog, vvp).

A text of some 2,000 assignments is generated, in layers of 200: sums, differences, logic and choices over
words of 32 bits, under the handshake of a kernel. Each layer reads all nets of the one before it, and the output
is the exclusive or of the last one, so that hardly a net is without an effect. (In one deep chain an event-driven simulator evaluates a
net again for each way that leads to it.) With `--storage` registers and memories stand between the layers,
written in each edge in which the kernel isn't held. Both tools run it over the same words for 100,000
edges; Icarus under the testbench of bench/testbench.py. The words must be the same. The ratio is that of the
processor times of whole runs, start and files included.

With `--stencil` the text is that of the stencil of bench/compile_speed.py, which is run for TICKS ticks until it is done; it
is compared with the program that Verilator builds too, with and without the time of the build.

    bench/simulate_speed.py [--storage] [ASSIGNMENTS [EDGES]]
    bench/simulate_speed.py --stencil [TICKS]
"""
import argparse
import json
import pathlib
import random
import shutil
import subprocess
import sys
import tempfile

import compile_speed
import testbench
import trials
import verilated

LINE, TICKS = 1920, 100_000
STENCIL_BAR = 5  # times as fast as vvp
LAYER = 200
REGISTERS, MEMORIES = 40, 4  # behind each layer
HEAD = """module top$project (
input wire [0:0] clk,
input wire [0:0] reset,
input wire [0:0] hold$K,
input wire [47:0] ticks$K,
input wire [31:0] in$x$data,
input wire [0:0] in$x$valid,
output wire [0:0] in$x$ready,
output wire [31:0] out$y$data,
output wire [0:0] out$y$valid,
input wire [0:0] out$y$ready,
output wire [0:0] done);
wire [0:0] go;
assign go = ~hold$K;
assign out$y$valid = in$x$valid & go;
assign in$x$ready = out$y$ready & go;
assign done = 1'h0;
"""


def layers(assignments, storage, seed=1):
    """A text with about so many assignments, with or without storage between its layers."""
    chance = random.Random(seed)
    wide, layer, bits, lines, updates = ["in$x$data"], [], ["go"], [], []
    for number in range(assignments - 5):
        if len(layer) == LAYER:
            wide, layer = layer, []
            if storage:
                wide += store(chance, number, wide, lines, updates)
        a, b = wide[2 * number % len(wide)], wide[(2 * number + 1) % len(wide)]
        form = chance.randrange(8)
        if form < 5:
            sign = ["+", "-", "^", "&", "|"][form]
            width, right = 32, f"{a} {sign} {b}"
        elif form == 5:
            width, right = 1, f"{a} < {b}"
        elif form == 6:
            width, right = 32, f"{chance.choice(bits)} ? {a} : {b}"
        else:
            width, right = 32, f"~{a}"
        name = f"w{number}"
        (bits if width == 1 else layer).append(name)
        lines += [f"wire [{width - 1}:0] {name};", f"assign {name} = {right};"]
    if updates:
        lines += ["always @(posedge clk) begin", *updates, "end"]
    last = layer or wide
    for k, name in enumerate(last[1:]):
        lines += [f"wire [31:0] x{k};", f"assign x{k} = {f'x{k - 1}' if k else last[0]} ^ {name};"]
    return HEAD + "\n".join(lines) + f"\nassign out$y$data = x{len(last) - 2};\nendmodule\n"


def store(chance, number, wide, lines, updates):
    """Adds registers that hold nets of a layer, and memories that are written and read at nets of it; answers the nets that
    show what they hold."""
    shown = [f"r{number}_{k}" for k in range(REGISTERS)]
    for name in shown:
        lines.append(f"reg [31:0] {name};")
        updates.append(f"if (go) {name} <= {chance.choice(wide)};")
    for k in range(MEMORIES):
        memory, put, get, word = [f"{letter}{number}_{k}" for letter in "mpgd"]
        lines += [f"reg [31:0] {memory} [0:255];", f"wire [7:0] {put};", f"wire [7:0] {get};", f"wire [31:0] {word};"]
        lines += [f"assign {place} = {chance.choice(wide)}[7:0];" for place in (put, get)]
        lines.append(f"assign {word} = {memory}[{get}];")
        updates.append(f"if (go) {memory}[{put}] <= {chance.choice(wide)};")
        shown.append(word)
    return shown


def run_ours(work):
    seconds, said = verilated.timed([trials.PROGRAM, "simulate", "text.v", "run.json"], work)
    print(f"maxjc simulate: {said.strip()}, {seconds:.2f} s")
    return seconds, said


def run_theirs(work, spec, edges):
    """The processor seconds of `vvp` alone, without the translation of the text, and what it says."""
    text = work / "text.v"
    spec = spec | {"inputs": {"x": str(work / "x.txt")}}
    bench, _, _ = testbench.testbench(text.read_text(), spec, work, edges)
    subprocess.run(["iverilog", "-g2005", "-s", "testbench", "-o", str(work / "sim.vvp"), str(bench), str(text)], check=True)
    return verilated.timed(["vvp", "-n", work / "sim.vvp"], work)


def is_faster(work, spec, ours, said, bar):
    """Whether Icarus leaves the same words and the same end, and takes so many times as long."""
    if shutil.which("iverilog") is None:
        print("Icarus is not installed here, passed over")
        return True
    theirs, shown = run_theirs(work, spec, spec["edges"])
    edges = int(said.split()[-2])
    words = verilated.numbers(work / "y.txt")
    same = words == verilated.numbers(work / "out0.txt") and shown.strip() == said.strip()
    rates = f"{edges / theirs:.0f} edges a second, maxjc {edges / ours:.0f}"
    print(f"vvp: {theirs:.2f} s; {len(words)} words, {'the same' if same else 'NOT the same'}; {theirs / ours:.1f} times as long: {rates}")
    return same and theirs / ours >= bar


def beside_verilator(work, spec, ours, said):
    """Whether the words and the end are those of the program that Verilator builds."""
    if shutil.which("verilator") is None:
        print("Verilator is not installed here, passed over")
        return True
    before = verilated.spent()
    program = verilated.build(work)
    built = verilated.spent() - before
    theirs, shown = verilated.timed([*program, spec["edges"], spec["ticks"]["K"]], work)
    same = shown == said and verilated.numbers(work / "y.txt") == verilated.numbers(work / "theirs.txt")
    print(
        f"Verilator: the build {built:.2f} s, the run {theirs:.2f} s; words and end {'the same' if same else 'NOT the same'}; "
        f"maxjc takes {ours / theirs:.1f} times the run, {ours / (built + theirs):.2f} times both"
    )
    return same


def write_run(work, width, count, ticks, edges):
    """Writes random words and the run file, and gives what stands in it."""
    chance = random.Random(2)
    (work / "x.txt").write_text("".join(f"{chance.getrandbits(width):0{width // 4}x}\n" for _ in range(count)))
    spec = {"ticks": {"K": ticks}, "inputs": {"x": "x.txt"}, "outputs": {"y": "y.txt"}, "edges": edges}
    (work / "run.json").write_text(json.dumps(spec))
    return spec


def run_stencil(work, ticks):
    """The stencil's text under a run that is done a line and some edges after the last word."""
    (work / "source.maxj").write_text(compile_speed.stencil(LINE))
    (work / "table.json").write_text(json.dumps(compile_speed.TABLE))
    words = [trials.PROGRAM, "compile", "source.maxj", "table.json", "text.v", "report"]
    print(subprocess.run([str(word) for word in words], cwd=work, capture_output=True, text=True).stdout.strip())
    spec = write_run(work, 8, ticks, ticks, ticks + LINE + 10)
    ours, said = run_ours(work)
    good = is_faster(work, spec, ours, said, STENCIL_BAR)
    return beside_verilator(work, spec, ours, said) and good


def main():
    arguments = argparse.ArgumentParser(description="The speed of maxjc simulate beside Icarus and Verilator.")
    arguments.add_argument("--storage", action="store_true", help="registers and memories between the layers")
    arguments.add_argument("--stencil", action="store_true", help="the text of a stencil; the number is that of its ticks")
    arguments.add_argument("assignments", type=int, nargs="?")
    arguments.add_argument("edges", type=int, nargs="?", default=100000)
    given = arguments.parse_args()
    trials.build()
    with tempfile.TemporaryDirectory() as folder:
        work = pathlib.Path(folder)
        if given.stencil:
            return 0 if run_stencil(work, given.assignments or TICKS) else 1
        (work / "text.v").write_text(layers(given.assignments or 2000, given.storage))
        spec = write_run(work, 32, given.edges, given.edges, given.edges)
        return 0 if is_faster(work, spec, *run_ours(work), 0) else 1


if __name__ == "__main__":
    sys.exit(main())
