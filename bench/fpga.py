#!/usr/bin/env python3
"""The cells and the clock of designs on FPGAs, by Yosys and nextpnr.

    bench/fpga.py [--seconds N]          six kernels of bench/hand, emitted and by hand: a table in Markdown
    bench/fpga.py --example FOLDER ..    each folder's source by its table: a table in Markdown

For iCE40 (HX8K) the design is placed and routed with three seeds; the clock is given from the slowest of them to the
fastest. For ECP5 and Xilinx 7 the cells are those after synthesis. `--seconds` is the limit of processor time for each
call of a tool (600). A dash stands where a tool didn't end, or where the device is too small. Tools run niced, one at a
time.
"""
import argparse
import functools
import json
import os
import pathlib
import re
import resource
import shutil
import signal
import subprocess
import sys
import tempfile
from dataclasses import dataclass, field

import example_page
from trials import PROGRAM, TOP, build

HAND = TOP / "bench/hand"
SEEDS, MOST_SEEDS = 3, 8  # how many seeds are to end, and how many are tried: the placer may not end by one
PLACING = 60  # seconds for a seed at the most
LOADED = 10  # times as long may pass on a clock on the wall, where the machine does other work
DEVICE = ["--hx8k", "--package", "ct256", "--pcf-allow-unconstrained", "--freq", "150", "--timing-allow-fail"]
STAT = re.compile(r"^ +([A-Z$]\w+) +(\d+)$", re.M)
OPERATIONS = "add sub mul div neg and or xor not eq ne lt le gt ge mux round".split()
# the latencies by which each kernel is compiled; those that aren't named are 0
LATENCIES = {
    "running_sum": {},
    "gauss": {"add": 1},
    "histogram": {},
    "cordic": {"add": 1, "sub": 1},
    "fir": {"mul": 1},
    "exponential": {"mul": 3, "add": 1},
}
# of each family: the command of Yosys, and the cells that are LUTs (with how many each takes), flip-flops, block RAMs
# and DSPs
FAMILIES = {
    "iCE40": ("synth_ice40", {"SB_LUT4": 1}, r"SB_DFF", {"SB_RAM40_4K": 1}, {}),
    "ECP5": (
        "synth_ecp5",
        {"LUT4": 1, "CCU2C": 2, "TRELLIS_DPR16X4": 4},
        r"TRELLIS_FF",
        {"DP16KD": 1, "PDPW16KD": 1},
        {"MULT18X18D": 1},
    ),
    "Xilinx": (
        "synth_xilinx",
        {**{f"LUT{n}": 1 for n in range(1, 7)}, "SRL16E": 1, "SRLC32E": 1, "RAM32M": 4, "RAM64M": 4, "RAM32X1D": 2},
        r"FD[RSCP]E",
        {"RAMB18E1": 1, "RAMB36E1": 2},
        {"DSP48E1": 1},
    ),
}


@dataclass
class Cells:
    """The cells of a design on a family, and on iCE40 its logic cells and the clocks in MHz."""

    luts: int
    registers: int
    rams: int
    dsps: int
    logic: int = None
    clocks: list = field(default_factory=list)


class Tools:
    """Yosys and nextpnr in a folder of their own, with a limit of time."""

    def __init__(self, folder, seconds):
        self.folder, self.seconds = folder, seconds

    def run(self, words, seconds=None):
        """What a tool says, or None where it fails or doesn't end; then what it started is ended too."""
        seconds = seconds or self.seconds
        kinds = {"stdout": subprocess.PIPE, "stderr": subprocess.DEVNULL, "text": True, "start_new_session": True}
        limit = functools.partial(resource.setrlimit, resource.RLIMIT_CPU, (seconds, seconds))
        tool = subprocess.Popen(["nice", *map(str, words)], cwd=self.folder, preexec_fn=limit, **kinds)
        try:
            said, _ = tool.communicate(timeout=LOADED * seconds)
        except subprocess.TimeoutExpired:
            os.killpg(tool.pid, signal.SIGKILL)
            tool.communicate()
            return None
        return said if tool.returncode == 0 else None

    def cells(self, text, top, family):
        """The cells of a text on a family, or None."""
        command, luts, registers, rams, dsps = FAMILIES[family]
        script = f"read_verilog {text}; {command} -top {top}; write_json net.json; tee -q -o stat stat"
        if self.run(["yosys", "-q", "-p", script]) is None:
            return None
        found = {}
        for cell, count in STAT.findall((self.folder / "stat").read_text().split("design hierarchy")[-1]):
            found[cell] = found.get(cell, 0) + int(count)

        def total(weights):
            return sum(found.get(cell, 0) * weight for cell, weight in weights.items())

        flops = sum(count for cell, count in found.items() if re.match(registers, cell))
        return Cells(total(luts), flops, total(rams), total(dsps))

    def placed(self, cells):
        """Places and routes the last text for iCE40, by as many seeds as are to end."""
        seconds = min(self.seconds, PLACING)
        for seed in range(1, MOST_SEEDS + 1):
            words = ["nextpnr-ice40", *DEVICE, "--json", "net.json", "--seed", seed, "-q", "--report", "report.json"]
            if self.run(words, seconds) is None:
                continue
            report = json.loads((self.folder / "report.json").read_text())
            cells.clocks.append(max(clock["achieved"] for clock in report["fmax"].values()))
            cells.logic = report["utilization"]["ICESTORM_LC"]["used"]
            if len(cells.clocks) == SEEDS:
                return

    def measured(self, text, top):
        """The cells of a text on each family, None where a tool gave none."""
        found = {}
        for family in FAMILIES:
            found[family] = self.cells(text, top, family)
            if family == "iCE40" and found[family] and shutil.which("nextpnr-ice40"):
                self.placed(found[family])
        return found


def compiled(source, table, folder):
    """The text of a source by a table."""
    text = folder / "design.v"
    words = [PROGRAM, "compile", source, table, text, folder / "design.report"]
    done = subprocess.run(list(map(str, words)), capture_output=True, text=True)
    if done.returncode:
        sys.exit(f"{source}: {done.stdout.strip()}")
    return text


def table_of(latencies, folder):
    """A latency table in which some operations take ticks."""
    path = folder / "table.json"
    path.write_text(json.dumps({name: [[1, latencies.get(name, 0)]] for name in OPERATIONS}))
    return path


COLUMNS = ["iCE40: LUT4", "registers", "block RAM", "logic cells", "MHz"]
COLUMNS += ["ECP5: LUT4", "registers", "block RAM", "DSP", "Xilinx: LUT", "registers", "block RAM", "DSP"]
HEAD = "| design | | " + " | ".join(COLUMNS) + " |\n" + "|---" * (2 + len(COLUMNS)) + "|"


def row(name, kind, found):
    """A row of the table."""
    shown = []
    for family, cells in found.items():
        own = [cells.luts, cells.registers, cells.rams] if cells else ["-"] * 3
        if family == "iCE40":
            own.append(cells.logic if cells and cells.logic else "-")
            own.append(f"{min(cells.clocks):.0f} to {max(cells.clocks):.0f}" if cells and cells.clocks else "-")
        else:
            own.append(cells.dsps if cells else "-")
        shown += [f"{number:,}" if isinstance(number, int) else number for number in own]
    return f"| {name} | {kind} | " + " | ".join(shown) + " |"


def sides(name, folder):
    """(kind, text, top) of a design of bench/hand."""
    yield "emitted", compiled(HAND / f"{name}.maxj", table_of(LATENCIES[name], folder), folder), "top$project"
    yield "by hand", HAND / f"{name}.v", name


def source_and_table(example):
    """The source of an example's folder, and its table: its own, that of its page, or the one without latencies."""
    folder = pathlib.Path(example).resolve()
    (source,) = folder.glob("*.maxj")
    own = folder / "table.json"
    return source, own if own.exists() else example_page.tables().get(folder.name, TOP / "examples/tables/zero.json")


def main():
    words = argparse.ArgumentParser(description=__doc__, formatter_class=argparse.RawDescriptionHelpFormatter)
    words.add_argument("--example", nargs="+", metavar="FOLDER")
    words.add_argument("--seconds", type=int, default=600, metavar="N")
    words.add_argument("--only", nargs="+", metavar="NAME", choices=list(LATENCIES))
    options = words.parse_args()
    if not shutil.which("yosys"):
        print("fpga: yosys isn't installed here, passed over")
        return 0
    build()
    print(HEAD, flush=True)
    with tempfile.TemporaryDirectory() as work:
        folder = pathlib.Path(work)
        tools = Tools(folder, options.seconds)
        if options.example:
            for example in options.example:
                source, table = source_and_table(example)
                found = tools.measured(compiled(source, table, folder), "top$project")
                print(row(source.parent.name, table.name, found), flush=True)
            return 0
        for name in options.only or LATENCIES:
            for kind, text, top in sides(name, folder):
                print(row(name, kind, tools.measured(text, top)), flush=True)
    return 0


if __name__ == "__main__":
    sys.exit(main())
