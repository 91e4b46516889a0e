#!/usr/bin/env python3
"""Compares `maxjc simulate` with Icarus on random designs of the whole Verilog subset.

Each seed gives a design and a run (bench/design_maker.py). The text is run by `maxjc simulate` and by
Icarus from the same contents under the same stalls; the words that leave and the line that says how the run
ended must be the same. The forms that the designs use are counted; of 40 designs or more, a fourth must use
each form. A design with a difference is kept, and its seed and place are said. Passed over where Icarus is
missing.

    bench/random_designs.py [--seeds N] [--first SEED]
"""
import argparse
import pathlib
import shutil
import sys
import tempfile

import design_maker
import icarus_words
import module_maker
import trials

SHARE, FEWEST_COUNTED = 4, 40
WIDTHS = ["width 1", "width 2 to 63", "width 64", "width 65 to 127", "width 128"]
FORMS = module_maker.EXPRESSIONS + WIDTHS + [
    "register", "register set by reset", "register that takes a register's word",
    "memory", "memory update", "memory update that may pass the depth", "memory without an update",
    "several update blocks", "empty update block",
    "instance", "instances nested 1 deep", "instances nested 2 deep", "instances nested 3 deep",
    "output port joined to an instance", "input that hangs on an output of its instance",
    "two kernels", "scalar", "several inputs", "several outputs", "stalls", "fill", "done", "not done", "words leave",
]


def compare(seed, folder):
    """The differences on the design of a seed, and how often it uses each form."""
    made = design_maker.design(seed)
    text, run_file = made.write(folder)
    wrong, ended = icarus_words.compare(text, run_file, folder)
    words = sum(len((folder / name).read_text().split()) for name in made.run["outputs"].values() if (folder / name).exists())
    made.forms["not done" if ended.startswith("not") else "done"] += 1
    made.forms["words leave"] += words
    return wrong, made.forms


def print_forms(designs):
    """Prints how many designs use each form and how often it stands in all, and answers the forms that too few use."""
    rare = []
    for form in FORMS:
        using = sum(forms[form] > 0 for forms in designs)
        print(f"  {form}: in {using} designs, {sum(forms[form] for forms in designs)} in all")
        if using * SHARE < len(designs):
            rare.append(form)
    return rare


def main():
    arguments = argparse.ArgumentParser(description="Compares maxjc simulate with Icarus on random designs.")
    arguments.add_argument("--seeds", type=int, default=60)
    arguments.add_argument("--first", type=int, default=1)
    given = arguments.parse_args()
    if shutil.which("iverilog") is None:
        print("Icarus is not installed here, passed over")
        return 0
    trials.build()
    designs, bad = [], False
    for seed in range(given.first, given.first + given.seeds):
        folder = pathlib.Path(tempfile.mkdtemp(prefix=f"random_design_{seed}_"))
        wrong, forms = compare(seed, folder)
        designs.append(forms)
        if wrong:
            bad = True
            print(f"seed {seed}, {folder / 'text.v'}: " + "; ".join(wrong))
        else:
            shutil.rmtree(folder)
    rare = print_forms(designs)
    print(f"{len(designs)} designs: " + ("NOT the same words" if bad else "the same words"))
    if len(designs) >= FEWEST_COUNTED and rare:
        print("too few designs use: " + ", ".join(rare))
        bad = True
    return 1 if bad else 0


if __name__ == "__main__":
    sys.exit(main())
