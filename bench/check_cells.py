#!/usr/bin/env python3
"""Reads the cells that Yosys makes of small kernels, for iCE40 and Xilinx devices.

Each kernel is compiled and synthesized, module by module. A memory of 64 words or more is to become block memory or LUT
memory: the flip-flops of its module are to be no more than its registers have bits, but for what a synthesizer adds to a
memory of its own accord (a copy of the address, and of the word that is written in the edge in which it is read) and for
memories of fewer words, which may become flip-flops. On iCE40, which has no shift registers, they are to be no fewer than
the bits of the module's registers. No cell may be left that the device doesn't have. Passed over where Yosys is missing.

    bench/check_cells.py
"""
import pathlib
import re
import shutil
import subprocess
import sys
import tempfile

import testbench
from trials import PROGRAM, TOP, build

HEAD = "class %s extends Kernel { %s(KernelParameters p) { super(p);\n"
X = 'DFEVar x = io.input("x", dfeUInt(8));\n'
Y = 'io.output("y", %s, dfeUInt(8)); } }\n'
TARGETS = {"synth_ice40": "synth_ice40 -noflatten", "synth_xilinx": "synth_xilinx"}
FLIP_FLOP = re.compile(r"SB_DFF\w*|FD[RSCP]E(_1)?")
MEMORY = re.compile(r"SB_RAM40_\w+|SB_SPRAM\w*|RAMB\d+\w*|RAM\d+[MXSD]\w*")
INSIDE = re.compile(r"\$.*")
LARGE = 64  # words
BLOCK = re.compile(r"=== (\S+) ===\n(.*?)(?=\n=== |\Z)", re.S)
CELL = re.compile(r"^ {5}(\S+) +(\d+)$", re.M)


def kernel(name, value):
    return HEAD % (name, name) + X + Y % value


KERNELS = {
    "Back64": kernel("Back64", "x + stream.offset(x, -64)"),
    "Back1920": kernel("Back1920", "x + stream.offset(x, -1920)"),
    "Stencil": kernel("Stencil", "stream.offset(x, -1920) + x + stream.offset(x, 1920)"),
    "Back9": kernel("Back9", "x + stream.offset(x, -9)"),
    "Sums": (TOP / "bench/kernels/sum3.maxj").read_text(),
}


def stored(items):
    """The bits of the registers of a module, and its memories as (width, words)."""
    found = [(int(high) + 1, int(last) + 1 if last else None) for high, _, last in testbench.STORE.findall(items)]
    return sum(width for width, words in found if words is None), [(width, words) for width, words in found if words is not None]


def most_flip_flops(registers, memories):
    """The most flip-flops of a module with these registers and memories."""
    added = 0
    for width, words in memories:
        added += width + 1 + 2 * (words - 1).bit_length()
        if words < LARGE:
            added += width * words
    return registers + added


def cells_of(text, command, work):
    """The cells of each module by their kinds, or None where the text isn't synthesized."""
    script = f"read_verilog {text}; {command} -top top$project; tee -o {work}/stat stat"
    done = subprocess.run(["yosys", "-q", "-p", script], capture_output=True, text=True)
    if done.returncode != 0:
        print(done.stdout + done.stderr)
        return None
    blocks = BLOCK.findall((work / "stat").read_text())
    return {module: {kind: int(count) for kind, count in CELL.findall(block)} for module, block in blocks if module != "design"}


def count(cells, kinds):
    return sum(number for kind, number in cells.items() if kinds.fullmatch(kind))


def faults(target, items, cells):
    """What is wrong of the cells of a module."""
    registers, memories = stored(items)
    flip_flops, blocks = count(cells, FLIP_FLOP), count(cells, MEMORY)
    large = [words for _, words in memories if words >= LARGE]
    if blocks < len(large):
        yield f"{blocks} cells of memory for memories of {large} words"
    if flip_flops > most_flip_flops(registers, memories):
        yield f"{flip_flops} flip-flops for {registers} bits of registers and memories of {memories}"
    if target == "synth_ice40" and flip_flops < registers:
        yield f"{flip_flops} flip-flops for {registers} bits of registers"
    left = [kind for kind in cells if INSIDE.fullmatch(kind)]
    if left:
        yield f"cells that the device doesn't have: {left}"


def check(name, text, target, command, work):
    """Whether the cells of a text are as they must be; prints them."""
    found = cells_of(text, command, work)
    if found is None:
        print(f"{name}, {target}: NOT synthesized")
        return False
    good = True
    for module, _, items in testbench.modules_of(text.read_text()):
        cells = found[module]
        wrong = list(faults(target, items, cells))
        good &= not wrong
        registers, memories = stored(items)
        if registers or memories:
            seen = f"{count(cells, FLIP_FLOP)} flip-flops, {count(cells, MEMORY)} cells of memory"
            print(f"{name}, {target}, {module}: {registers} bits of registers, memories {memories}: {seen}" + "".join(f"; WRONG: {line}" for line in wrong))
    return good


def main():
    if shutil.which("yosys") is None:
        print("Yosys is not installed here, passed over")
        return 0
    build()
    good = True
    with tempfile.TemporaryDirectory() as folder:
        work = pathlib.Path(folder)
        for name, source in KERNELS.items():
            (work / "source.maxj").write_text(source)
            words = [PROGRAM, "compile", "source.maxj", TOP / "examples/tables/pipelined.json", "text.v", "report"]
            done = subprocess.run([str(word) for word in words], cwd=work, capture_output=True, text=True)
            if done.returncode != 0:
                print(f"{name}: not compiled: {done.stdout.strip()}")
                good = False
                continue
            for target, command in TARGETS.items():
                good &= check(name, work / "text.v", target, command, work)
    print("the cells are " + ("as they must be" if good else "NOT as they must be"))
    return 0 if good else 1


if __name__ == "__main__":
    sys.exit(main())
