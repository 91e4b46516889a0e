"""Writes a shell around a text that `maxjc compile` wrote: AXI ports, and what simulators and tools need.

    python3 -m kalebrush shell top.v --to shell
    python3 -m kalebrush shell top.v --to shell --source k.maxj --table t.json --in x=x.txt

`TEXT_axi.v` has AXI4-Stream ports for the streams and AXI4-Lite registers for ticks, scalars, start, done and a cycle
counter. With a source and a run, the folder has testbenches for Icarus, Verilator and cocotb with the words of the run,
and those of outputs with a signed type are extended by their sign.
"""
from __future__ import annotations

import argparse
import pathlib
import re

from kalebrush.commands.given import add_run, given
from kalebrush.errors import KalebrushError, ValueRefused
from kalebrush.project import Project
from kalebrush.shell import cocotb_test, extras
from kalebrush.shell.testbench import RunWords, testbench, write_words
from kalebrush.shell.top import Top, read_top
from kalebrush.shell.wrapper import wrapper


def add(command: argparse.ArgumentParser) -> None:
    """The words of the command."""
    command.add_argument("text", help="the Verilog text that `maxjc compile` wrote")
    command.add_argument("--to", metavar="FOLDER", help="the folder that is written (NAME_axi beside the text)")
    command.add_argument("--name", help="the name of the wrapper (NAME_axi)")
    command.add_argument("--mhz", type=float, default=100.0, help="the clock of the constraints (100)")
    command.add_argument("--source", help="the source of the text")
    command.add_argument("--table", help="the latency table by which it was compiled")
    add_run(command)


def main(options: argparse.Namespace) -> int:
    """Runs the command."""
    path = pathlib.Path(options.text)
    try:
        text = path.read_text(encoding="utf-8")
    except OSError as error:
        raise KalebrushError(f"{path} can't be read: {error.strerror}") from None
    top = read_top(text)
    module = options.name or re.sub(r"\W", "_", path.stem) + "_axi"
    if not re.fullmatch(r"[A-Za-z]\w*", module):
        raise ValueRefused(f"{module} is no name of a module: give one by --name")
    folder = pathlib.Path(options.to) if options.to else path.with_name(module)
    project = Project(options.source, options.table) if options.source else None
    run = run_words(options, project) if project and options.inputs else None
    written = write_shell(folder, top, module, (path.name, text), project, run, options.mhz)
    for name in written:
        print(f"{folder / name}")
    return 0


def run_words(options: argparse.Namespace, project: Project) -> RunWords:
    """The words of the run that the command line says, with those that are expected."""
    run = given(options, project)
    expected = project.expect(run.inputs, run.ticks, run.scalars)
    scalars = {name: int(word, 16) for name, word in project.encoded_scalars(run.scalars).items()}
    outputs = {name: (expected.words[name], expected.undefined[name]) for name in expected}
    ticks, encoded = project.ticks_of(run.inputs, run.ticks), project.encoded(run.inputs)
    return RunWords(ticks, scalars, encoded, outputs, signed_of(project))


def signed_of(project: Project) -> frozenset[str]:
    """The outputs whose words have a sign."""
    return frozenset(name for name, port in project.outputs.items() if port.type.signed)


def write_shell(
    folder: pathlib.Path,
    top: Top,
    module: str,
    text: tuple[str, str],
    project: Project | None = None,
    run: RunWords | None = None,
    mhz: float = 100.0,
) -> list[str]:
    """Writes the files of a shell: their names. `text` is the name of the compiled text and what it holds."""
    signed = signed_of(project) if project else frozenset()
    files = {text[0]: text[1], f"{module}.v": wrapper(top, module, signed), "waivers.vlt": extras.WAIVERS}
    files |= extras.constraints(module, mhz)
    files[f"{module}.core"] = extras.core_file(top, module, text[0], run is not None)
    files["README.md"] = extras.page(top, module, text[0], run is not None)
    if run:
        files[f"tb_{module}.v"] = testbench(top, module, run)
        files[f"test_{module}.py"] = cocotb_test.cocotb_test(top, module, run)
        files["cocotb.mk"] = cocotb_test.MAKEFILE.format(text=text[0], module=module)
    try:
        folder.mkdir(parents=True, exist_ok=True)
        for name, content in files.items():
            (folder / name).write_text(content, encoding="utf-8")
        if run:
            write_words(run, top, folder)
    except OSError as error:
        raise KalebrushError(f"{folder} can't be written: {error.strerror}") from None
    return list(files)
