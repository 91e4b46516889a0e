#!/usr/bin/env python3
"""Runs the commands of docs/TUTORIAL.md in a folder of their own, and compares what they say and leave with the page.

A block behind a line that ends in `NAME`: is that file, and so is a block of text that is headed by a name; a block of text that is
headed by `left` is what y.txt is to hold. Each command is followed by the lines that it says.

    bench/check_tutorial.py     ends with status 1 where something differs; MAXJC in the environment names another program
"""
import pathlib
import re
import subprocess
import sys
import tempfile

from trials import PROGRAM, TOP, build

PAGE = TOP / "docs/TUTORIAL.md"
BLOCK = re.compile(r"^```([^\n]*)\n(.*?)^```$", re.M | re.S)
NAMED = re.compile(r"`([\w.]+)`[^`]*:\s*$")
COMMAND = "maxjc "


def steps():
    """(file, text), (left, text) or (command, lines), in the order of the page."""
    page, at = PAGE.read_text(), 0
    for block in BLOCK.finditer(page):
        head, text = block[1].split(), block[2]
        named = NAMED.search(page[at : block.start()])
        at = block.end()
        if head == ["text", "left"]:
            yield "left", text
        elif head[:1] == ["text"] and len(head) == 2:
            yield head[1], text
        elif head:
            yield named[1], text
        else:
            command, *lines = text.splitlines()
            yield command, lines


def wrong(work, step):
    """What is wrong of a step, if anything is."""
    name, wanted = step
    if name == "left":
        left = (work / "y.txt").read_text()
        return None if left == wanted else f"y.txt has {left.split()}, and not {wanted.split()}"
    if not name.startswith(COMMAND):
        (work / name).write_text(wanted)
        return None
    done = subprocess.run([PROGRAM, *name.split()[1:]], cwd=work, capture_output=True, text=True)
    said = done.stdout.splitlines()
    return None if said == wanted else f"{name} says {said}, and not {wanted}"


def main():
    build()
    count, found = 0, []
    with tempfile.TemporaryDirectory() as folder:
        for step in steps():
            count += step[0].startswith(COMMAND)
            found += filter(None, [wrong(pathlib.Path(folder), step)])
    for line in found:
        print(line)
    print(f"check_tutorial: {count} commands of {PAGE.name}, {len(found)} told otherwise")
    return 1 if found else 0


if __name__ == "__main__":
    sys.exit(main())
