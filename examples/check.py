#!/usr/bin/env python3
"""Compiles and simulates the examples, and compares what the program does with their pages and the files beside these.

Each command that a page NAME/README.md shows is run, and is to say the lines that stand behind it there. The words that leave a
simulation are to be those of the files NAME/PORT.expected.txt. These files and the words that come in are to be those of
examples/models.py, and the parts of sources that the pages show are to stand in a source.

    examples/check.py     ends with status 1 where something differs; MAXJC in the environment names another program
"""
import json
import pathlib
import subprocess
import sys
import tempfile

HERE = pathlib.Path(__file__).resolve().parent
sys.path.insert(0, str(HERE.parent / "bench"))

import example_page
import models
from trials import PROGRAM, build


def wrong_words(run_file, work):
    """The outputs of a run whose words aren't those that are expected, each with the first place; and how many words there are."""
    wrong, count = [], 0
    for port, file in json.loads(run_file.read_text())["outputs"].items():
        left = (work / file).read_text().splitlines()
        wanted = (run_file.parent / f"{port}.expected.txt").read_text().splitlines()
        count += len(left)
        if left != wanted:
            pairs = zip(left, wanted)
            place = next((place for place, (a, b) in enumerate(pairs) if a != b), min(len(left), len(wanted)))
            wrong.append(f"{port} differs at word {place}, {len(left)} words and not {len(wanted)}")
    return wrong, count


def checked(command, work):
    """What is wrong of a command that a page shows, and what is told of it."""
    done = subprocess.run([PROGRAM, *command.words], cwd=work, capture_output=True, text=True)
    said = done.stdout.splitlines()
    wrong = [] if said == command.lines else [f"it says {said}, and not {command.lines}"]
    told = "; ".join(said) or "nothing"
    if command.words[0] == "simulate" and said and said[0].startswith("done"):
        differ, count = wrong_words(HERE.parent / command.words[2], work)
        wrong += differ
        told += f"; {count} words" + ("" if differ else ", as expected")
    return wrong, told


def stale_files():
    """The files of words that aren't as examples/models.py writes them, and the parts of sources that aren't in one."""
    for path, text in models.files():
        if not path.exists() or path.read_text() != text:
            yield f"{path.relative_to(HERE.parent)} isn't what examples/models.py writes"
    for line in example_page.strange_excerpts():
        yield f"no source has the part of a page that begins with {line}"


def unshown():
    """The examples of which no page shows a simulation."""
    shown = {pathlib.Path(command.words[2]).parent.name for command in example_page.commands() if command.words[0] == "simulate"}
    return sorted({path.parent.name for path in HERE.glob("*/*.maxj")} - shown)


def main():
    build()
    bad = [*stale_files(), *(f"{name}: not shown" for name in unshown())]
    for line in bad:
        print(line)
    with tempfile.TemporaryDirectory() as folder:
        work = pathlib.Path(folder)
        (work / "examples").symlink_to(HERE)
        for command in example_page.commands():
            wrong, told = checked(command, work)
            bad += wrong
            print(f"{' '.join(command.words[:3])}: {told}" + "".join(f"; WRONG: {what}" for what in wrong))
    return 1 if bad else 0


if __name__ == "__main__":
    sys.exit(main())
