#!/usr/bin/env python3
"""Time and memory of `maxjc` on a project of 64 kernels in a chain, each of 200 nodes: `compile`, `check`, and `simulate` beside Icarus.

Each kernel adds to a word the one of the tick before, 99 times, on words of 32 bits; a sum takes a tick. So each kernel keeps 99 words
in FIFOs, and 64 of them in a chain are as deep as their times. `compile` is to take at most two seconds. The words that leave `simulate`
are to be those of Icarus, where it is installed, under the testbench of bench/testbench.py; the ratio is that of the processor times
of whole runs.

    bench/project_speed.py [TICKS]
"""
import json
import pathlib
import random
import shutil
import subprocess
import sys
import tempfile

import compile_speed
import testbench
import trials
import verilated

KERNELS, SUMS, WIDTH = 64, 99, 32
TIME_BAR = 2.0
TICKS = 2_000
TABLE = {"add": [[1, 1]]}
KERNEL = f"""class Stage extends Kernel {{
  Stage(KernelParameters p) {{
    super(p);
    DFEVar v = io.input("x", dfeUInt({WIDTH}));
    for (int turn = 0; turn < {SUMS}; turn++) {{
      v = v + stream.offset(v, -1);
    }}
    io.output("y", v, dfeUInt({WIDTH}));
  }}
}}
"""


def chain():
    """The source of the project."""
    lines = [f'KernelBlock k{number} = addKernel(new Stage(makeKernelParameters("K{number}")));' for number in range(KERNELS)]
    lines.append('k0.getInput("x") <== addStreamFromCPU("x");')
    lines += [f'k{number}.getInput("x") <== k{number - 1}.getOutput("y");' for number in range(1, KERNELS)]
    lines.append(f'addStreamToCPU("y") <== k{KERNELS - 1}.getOutput("y");')
    body = "".join(f"    {line}\n" for line in lines)
    return f"{KERNEL}class Chain extends CustomManager {{\n  Chain(EngineParameters e) {{\n    super(e);\n{body}  }}\n}}\n"


def wanted_lines(word):
    """The line of each kernel: one word of 32 bits for each sum."""
    return [f"kernel K{number} {word} {SUMS * WIDTH}" for number in range(KERNELS)]


def is_compiled(work):
    """Whether `compile` and `check` say what they are to say, in time."""
    (work / "source.maxj").write_text(chain())
    (work / "table.json").write_text(json.dumps(TABLE))
    said, seconds, memory = compile_speed.measure(["compile", "source.maxj", "table.json", "text.v", "report"], work)
    shown, check_seconds, check_memory = compile_speed.measure(["check", "source.maxj", "table.json", "report"], work)
    good = said.split("\n")[:KERNELS] == wanted_lines("fifo") and shown.split("\n")[:KERNELS] == wanted_lines("least")
    size = (work / "text.v").stat().st_size
    print(f"compile of {KERNELS} kernels of {2 * SUMS + 2} nodes: {seconds:.2f} s, {memory / 2**20:.0f} MiB, {size} bytes of text")
    print(f"check of its report: {check_seconds:.2f} s, {check_memory / 2**20:.0f} MiB" + ("" if good else "; NOT the bits that are wanted"))
    return good and seconds <= TIME_BAR


def write_run(work, ticks):
    chance = random.Random(3)
    (work / "x.txt").write_text("".join(f"{chance.getrandbits(WIDTH):08x}\n" for _ in range(ticks)))
    spec = {"ticks": {f"K{number}": ticks for number in range(KERNELS)}, "inputs": {"x": "x.txt"}, "outputs": {"y": "y.txt"}}
    spec["edges"] = ticks + KERNELS * (SUMS + 2) + 10
    (work / "run.json").write_text(json.dumps(spec))
    return spec


def is_simulated(work, ticks):
    """Whether `simulate` is done, with the words of Icarus where it is installed."""
    spec = write_run(work, ticks)
    ours, said = verilated.timed([trials.PROGRAM, "simulate", "text.v", "run.json"], work)
    print(f"maxjc simulate: {said.strip()}, {ours:.2f} s")
    if not said.startswith("done"):
        return False
    if shutil.which("iverilog") is None:
        print("Icarus is not installed here, passed over")
        return True
    inside = spec | {"inputs": {"x": str(work / "x.txt")}}
    bench, _, _ = testbench.testbench((work / "text.v").read_text(), inside, work, spec["edges"])
    subprocess.run(["iverilog", "-g2005", "-s", "testbench", "-o", str(work / "sim.vvp"), str(bench), str(work / "text.v")], check=True)
    theirs, shown = verilated.timed(["vvp", "-n", work / "sim.vvp"], work)
    words = verilated.numbers(work / "y.txt")
    same = words == verilated.numbers(work / "out0.txt") and shown.strip() == said.strip()
    print(f"vvp: {theirs:.2f} s; {len(words)} words, {'the same' if same else 'NOT the same'}; {theirs / ours:.1f} times as long")
    return same


def main():
    ticks = int(sys.argv[1]) if len(sys.argv) > 1 else TICKS
    trials.build()
    with tempfile.TemporaryDirectory() as folder:
        work = pathlib.Path(folder)
        good = is_compiled(work) and is_simulated(work, ticks)
    return 0 if good else 1


if __name__ == "__main__":
    sys.exit(main())
