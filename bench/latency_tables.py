#!/usr/bin/env python3
"""Writes latency tables for families of FPGAs, from a model of an operation's delay.

A table is a place to start from: it says after how many ticks an operation's word is there if its logic is to fit the stated
clock, where the tool may move registers into it. The delays of LUTs and carry chains are those of Yosys 0.23's
simulation cells (techlibs/*/cells_sim.v: for Artix-7 from prjxray-db's timings, for ECP5 and iCE40 HX from theirs); that of
a net between two LUTs is the 300 ps with which Yosys maps for Xilinx, and twice as much for the others. The figures for
UltraScale+ are half of those of Artix-7, which is a guess and nothing measured. Three quarters of a period are for an
operation, the rest for the way to it; what takes less than a quarter of a period takes no tick.

    bench/latency_tables.py            writes examples/tables/NAME.json
    bench/latency_tables.py --check    says which file isn't as it is written; status 1 where one isn't
"""
import json
import math
import pathlib
import sys
from dataclasses import dataclass

TABLES = pathlib.Path(__file__).resolve().parent.parent / "examples/tables"
WIDTHS = [1, 9, 17, 25, 33, 49, 65, 97]  # the least widths of rows, and then the width that a row is reckoned for
MOST = 64  # ticks that a table can say


@dataclass
class Family:
    """A clock in MHz, delays in ps, and how a product is made: by blocks of so many bits, each in so many ticks, or by LUTs."""

    clock: int
    lut: int
    net: int
    carry: float
    options: int  # of a multiplexer in one level of LUTs
    block: int = 0
    block_ticks: int = 0

    @property
    def period(self):
        return 1_000_000 / self.clock

    def ticks(self, delay):
        if delay < self.period / 4:
            return 0
        return min(MOST, math.ceil(delay / (self.period * 3 / 4)))

    def level(self, count=1):
        return count * (self.lut + self.net)

    def sum(self, width):
        return self.level() + self.carry * width

    def product(self, width):
        if not self.block:
            return self.ticks(self.sum(2 * width) * max(1, math.ceil(math.log2(width))))
        parts = math.ceil(width / self.block)
        sums = self.ticks(self.sum(2 * width)) * math.ceil(math.log2(parts)) * 2
        return min(MOST, self.block_ticks + sums) if width > 1 else 0

    def quotient(self, width):
        return self.ticks(width * self.sum(width))


FAMILIES = {
    "artix7_200": Family(200, 642, 300, 114 / 4, 4, 18, 3),
    "ultrascale_plus_400": Family(400, 321, 150, 114 / 8, 4, 18, 3),
    "ecp5_125": Family(125, 379, 600, 43 / 2, 4, 18, 2),
    "ice40hx_60": Family(60, 449, 600, 126, 2),
}


def rows(ticks_at):
    """The rows of an operation, without those that say what the row before them says."""
    bounds = [*WIDTHS[1:], 129]
    said = [[least, ticks_at(bound - 1)] for least, bound in zip(WIDTHS, bounds)]
    return [row for number, row in enumerate(said) if number == 0 or row[1] != said[number - 1][1]]


def table(family):
    one = rows(lambda width: family.ticks(family.sum(width)))
    wide = rows(lambda width: family.ticks(family.level(math.ceil(math.log(max(2, width), 4)))))
    bitwise = rows(lambda width: family.ticks(family.level()))
    ready = {"add": one, "sub": one, "neg": one, "round": one, "lt": one, "le": one, "gt": one, "ge": one, "eq": wide, "ne": wide}
    ready |= dict.fromkeys(["and", "or", "xor", "not", "mux"], bitwise)
    ready |= {"mul": rows(family.product), "div": rows(family.quotient)}
    return ready


def text_of(family):
    lines = ",\n".join(f"  {json.dumps(name)}: {json.dumps(said)}" for name, said in table(family).items())
    return "{\n" + lines + "\n}\n"


def main():
    wrong = 0
    for name, family in FAMILIES.items():
        path, text = TABLES / f"{name}.json", text_of(family)
        if sys.argv[1:] != ["--check"]:
            path.write_text(text)
        elif not path.exists() or path.read_text() != text:
            wrong += 1
            print(f"{path.name} isn't what bench/latency_tables.py writes")
    print(f"{len(FAMILIES)} latency tables, {wrong} not as they are written")
    return 1 if wrong else 0


if __name__ == "__main__":
    sys.exit(main())
