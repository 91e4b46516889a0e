#!/usr/bin/env python3
"""Whether the designs by hand of bench/hand give the words of the kernels that they stand beside.

Icarus runs each design over random words, with a receiver that waits at random. What leaves is compared with what
`expect` says of the kernel, where that is defined. A design that answers for the middle of a window may be some words
later. Passed over where Icarus or NumPy is missing.

    bench/check_hand.py     ends with status 1 where words differ
"""
import os
import pathlib
import random
import shutil
import subprocess
import sys
import tempfile

from python_package import PYTHON
from trials import PROGRAM, TOP, build

HAND = TOP / "bench/hand"
# bits of an input word, how many words are tried, and by which bits of which port each output of the kernel leaves
DESIGNS = {
    "running_sum": (32, 300, {"y": "out_data"}),
    "gauss": (8, 2600, {"y": "out_data"}),
    "histogram": (8, 640, {f"bin{n}": f"out_data[{16 * n + 15}:{16 * n}]" for n in range(8)}),
    "cordic": (20, 300, {"cos": "cos", "sin": "sin"}),
    "fir": (16, 300, {"y": "out_data"}),
    "exponential": (32, 300, {"y": "out_data"}),
}
WIDTHS = {"histogram": 128}  # of a port that leaves, where it isn't that of the input
LATEST = 700  # words by which a design may answer later than the kernel

BENCH = """module bench;
  reg clk = 0, reset = 1, in_valid = 0, out_ready = 0, moves;
  reg [{last}:0] words [0:{most}];
  integer at = 0, idle = 0;
  wire [{last}:0] in_data = words[at];
  wire in_ready, out_valid;
  {wires}
  {name} dut (.clk(clk), .reset(reset), .in_data(in_data), .in_valid(in_valid), .in_ready(in_ready),
    .out_valid(out_valid), .out_ready(out_ready), {ports});
  always #5 clk = ~clk;
  initial begin
    $readmemh("words.mem", words);
    repeat (3) @(negedge clk);
    reset = 0;
    while (idle < 100) begin
      in_valid = at < {count};
      out_ready = $random;
      #1;
      if (out_valid & out_ready) $display("{form}", {shown});
      moves = in_valid & in_ready;
      @(negedge clk);
      if (moves) at = at + 1;
      if (!in_valid) idle = idle + 1;
    end
    $finish(0);
  end
endmodule
"""


def numbers(name, count, width):
    """Random words, of a range in which the design is exact."""
    random.seed(name)
    if name == "exponential":
        return [random.randrange(-(2**28), 2**28) % 2**width for _ in range(count)]
    if name == "cordic":
        return [random.randrange(-100_000, 100_000) % 2**width for _ in range(count)]
    return [random.randrange(2**width) for _ in range(count)]


def left_of(name, words, folder):
    """The words that leave a design, by the output."""
    width, count, outputs = DESIGNS[name]
    plain = sorted({port.partition("[")[0] for port in outputs.values()})
    text = BENCH.format(
        name=name,
        last=width - 1,
        most=count - 1,
        count=count,
        wires=" ".join(f"wire [{WIDTHS.get(name, width) - 1}:0] {port};" for port in plain),
        ports=", ".join(f".{port}({port})" for port in plain),
        form=" ".join(["%h"] * len(outputs)),
        shown=", ".join(outputs.values()),
    )
    (folder / "bench.v").write_text(text)
    (folder / "words.mem").write_text("".join(f"{word:x}\n" for word in words))
    build_words = ["iverilog", "-g2005", "-s", "bench", "-o", "bench.vvp", "bench.v", HAND / f"{name}.v"]
    subprocess.run(build_words, cwd=folder, check=True, capture_output=True)
    shown = subprocess.run(["vvp", "-n", "bench.vvp"], cwd=folder, check=True, capture_output=True, text=True).stdout
    rows = [line.split() for line in shown.splitlines()]
    return {output: [row[at].lower() for row in rows] for at, output in enumerate(outputs)}


def wanted_of(name, words):
    """The words that are expected of each output of the kernel, None where one is undefined."""
    sys.path.insert(0, str(TOP / "python"))
    import numpy
    from kalebrush import Project

    os.environ.setdefault("MAXJC", str(PROGRAM))
    project = Project(HAND / f"{name}.maxj")
    (port,) = project.inputs.values()
    found = project.expect({port.name: port.type.decode(numpy.array(words, numpy.uint64))})
    known = {output: zip(found.words[output], found.undefined[output]) for output in found}
    return {output: [None if unknown else int(word) for word, unknown in pairs] for output, pairs in known.items()}


def is_same(word, wanted):
    """Whether a word that left, with digits that Icarus may not know, is the one that is wanted, or any may be."""
    return wanted is None or ("x" not in word and int(word, 16) == wanted)


def later(left, wanted):
    """By how many words a design is later than the kernel, where all words are the same then; else None."""
    for behind in range(LATEST):
        pairs = list(zip(left[behind:], wanted))
        if 2 * len(pairs) >= len(wanted) and all(is_same(*pair) for pair in pairs):
            return behind
    return None


def main():
    if not shutil.which("iverilog") or PYTHON is None:
        print("check_hand: Icarus or NumPy isn't installed here, passed over")
        return 0
    if PYTHON != sys.executable and not os.environ.get("CHECK_HAND"):
        return subprocess.run([PYTHON, __file__], env={**os.environ, "CHECK_HAND": "1"}).returncode
    build()
    bad = 0
    for name, (width, count, _) in DESIGNS.items():
        words = numbers(name, count, width)
        with tempfile.TemporaryDirectory() as work:
            left = left_of(name, words, pathlib.Path(work))
        wanted = wanted_of(name, words)
        shifts = {output: later(left[output], wanted[output]) for output in wanted}
        bad += None in shifts.values()
        told = "; ".join(
            f"{output} {'DIFFERS' if by is None else f'the same, {by} words later'}" for output, by in shifts.items()
        )
        print(f"{name}: {told}", flush=True)
    print(f"check_hand: {len(DESIGNS)} designs, {bad} differ")
    return 1 if bad else 0


if __name__ == "__main__":
    sys.exit(main())
