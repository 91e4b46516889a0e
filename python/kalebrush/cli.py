"""The commands of `python3 -m kalebrush`."""
from __future__ import annotations

import argparse
import importlib
import sys

from kalebrush.errors import KalebrushError, ProgramError, Refusal

# each command with the module that has its `add` and `main`
COMMANDS = {
    "run": "simulates a kernel over pictures, tables or words, and compares what leaves with what is expected",
    "compare": "says the first word of a simulation, or of other words, that isn't the expected one",
    "plot": "draws the schedule, FIFO bits, links and words of a project",
    "page": "writes one HTML page of a project",
    "sweep": "compiles and runs by several tables, patterns of stalls and numbers of ticks",
    "shell": "writes AXI ports, a testbench and what tools need around a compiled text",
}


def parser() -> argparse.ArgumentParser:
    """The parser of the command line."""
    top = argparse.ArgumentParser(prog="kalebrush", description="Arrays in, pictures out: maxjc from Python.")
    commands = top.add_subparsers(dest="command", required=True, metavar="COMMAND")
    for name, told in COMMANDS.items():
        module = importlib.import_module(f"kalebrush.commands.{name}")
        command = commands.add_parser(
            name, help=told, description=module.__doc__, formatter_class=argparse.RawDescriptionHelpFormatter
        )
        module.add(command)
        command.set_defaults(main=module.main)
    return top


def main(words: list[str] | None = None) -> int:
    """Runs a command: 0 where all is well, 1 where something is refused or differs, 2 for wrong words."""
    options = parser().parse_args(words)
    try:
        return options.main(options)
    except Refusal as refusal:
        print(refusal.said)
        print(refusal.explanation or "", file=sys.stderr)
    except ProgramError as error:
        print(f"kalebrush: {error}", file=sys.stderr)
    except KalebrushError as error:
        print(f"kalebrush: {error}", file=sys.stderr)
    except KeyboardInterrupt:
        print("kalebrush: broken off", file=sys.stderr)
    return 1
