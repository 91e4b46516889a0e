#!/usr/bin/env python3
"""Whether the shells that `kalebrush shell` writes around compiled texts do what docs/USE_THE_DESIGN.md says.

Of three examples (a picture; scalars and controls; a project of three kernels):

- the testbench of the shell, in Icarus and as Verilator builds it, passes over the words that `expect` says: after
  a broken-off run, in two runs one behind the other, without gaps and with many, and with resets of several lengths;
- it fails where a word that is expected is changed, where `tlast` is at other words, and where the run has other ticks;
- Verilator has nothing to warn of but what waivers.vlt names;
- Yosys synthesizes it for iCE40, ECP5 and Xilinx devices.

A tool or package that is missing is passed over.

    bench/check_shell.py [EXAMPLE ..]    ends with status 1 where something is wrong
"""
import os
import pathlib
import re
import shutil
import signal
import subprocess
import sys
import tempfile

from python_package import PYTHON, surroundings
from trials import TOP, build

EXAMPLES = TOP / "examples"
# the inputs, scalars and ticks of the runs
RUNS = {
    "sobel": (["x"], [], []),
    "imbalance": (["isAsk", "bid", "ask"], ["scale=10000", "least=-3000", "most=3000"], ["240"]),
    "crossing": (["price"], [], []),
}
TABLES = {"sobel": "one", "imbalance": "pipelined", "crossing": "one"}
GAPS = [("0", "1", "5"), ("64", "2", "1"), ("160", "3", "2"), ("220", "4", "9")]  # stalls, seed and edges of reset
FAMILIES = ("synth_ice40 -dsp", "synth_ecp5", "synth_xilinx")
PATIENCE = 900  # seconds for a tool


def run(words, folder):
    """The status of a command, and what it says; where it doesn't end, what it started is ended too."""
    kinds = {"stdout": subprocess.PIPE, "stderr": subprocess.STDOUT, "text": True, "start_new_session": True}
    tool = subprocess.Popen(list(map(str, words)), cwd=folder, env=surroundings(), **kinds)
    try:
        said, _ = tool.communicate(timeout=PATIENCE)
    except subprocess.TimeoutExpired:
        os.killpg(tool.pid, signal.SIGKILL)
        tool.communicate()
        return 124, f"{words[0]} hadn't ended after {PATIENCE} s"
    return tool.returncode, said


def shell_of(name, folder):
    """Writes the shell of an example with its run; what is wrong, if anything is."""
    inputs, scalars, ticks = RUNS[name]
    source, table = EXAMPLES / name / f"{name}.maxj", EXAMPLES / f"tables/{TABLES[name]}.json"
    words = [
        PYTHON,
        "-m",
        "kalebrush",
        "shell",
        folder / f"{name}.v",
        "--to",
        folder / "shell",
        "--source",
        source,
        "--table",
        table,
    ]
    words += [word for port in inputs for word in ("--in", f"{port}={EXAMPLES / name / port}.txt")]
    words += [word for scalar in scalars for word in ("--scalar", scalar)] + [
        word for count in ticks for word in ("--ticks", count)
    ]
    program = os.environ.get("MAXJC") or TOP / "maxjc"
    status, told = run([program, "compile", source, table, folder / f"{name}.v", folder / "report"], folder)
    if status:
        return f"not compiled: {told}"
    status, told = run(words, folder)
    return told if status else None


def icarus(name, shell):
    """The program of the testbench for Icarus, or None and what is wrong."""
    module = f"{name}_axi"
    words = [
        "iverilog",
        "-g2005",
        "-Wall",
        "-Wno-timescale",
        "-s",
        f"tb_{module}",
        "-o",
        "tb.vvp",
        f"{name}.v",
        f"{module}.v",
        f"tb_{module}.v",
    ]
    status, told = run(words, shell)
    return (None, f"iverilog: {told}") if status or "warning" in told else (["vvp", "-n", "tb.vvp"], "")


def verilated(name, shell):
    """The same for Verilator."""
    module = f"{name}_axi"
    words = [
        "verilator",
        "--binary",
        "--timing",
        "-Wno-fatal",
        "-Wno-lint",
        "-Wno-STMTDLY",
        "--top-module",
        f"tb_{module}",
    ]
    status, told = run([*words, f"{name}.v", f"{module}.v", f"tb_{module}.v"], shell)
    return (None, f"verilator: {told[-2000:]}") if status else ([shell / f"obj_dir/Vtb_{module}"], "")


def tried(name, shell, tool, built):
    """What is wrong of a testbench's runs."""
    program, wrong = built
    if program is None:
        yield f"{name}: {wrong}"
        return
    for stalls, seed, reset in GAPS:
        _, told = run([*program, f"+stall={stalls}", f"+seed={seed}", f"+reset={reset}"], shell)
        passed = f"PASS {name}_axi" in told and "FAIL" not in told
        print(f"{name}, {tool}, {stalls} of 256 edges stalled: {'passes' if passed else 'FAILS'}", flush=True)
        if not passed:
            yield f"{name}, {tool}, stalls {stalls}: {told[-2000:]}"


def spoiled(name, shell):
    """What the testbench passes over though it is wrong."""
    module = f"{name}_axi"
    wrapper = (shell / f"{module}.v").read_text()
    bench = (shell / f"tb_{module}.v").read_text()
    memory = max(shell.glob("out_*.mem"), key=lambda path: path.stat().st_size)
    lines = memory.read_text().splitlines()
    at = max(number for number, line in enumerate(lines) if "x" not in line)
    changed = f"{int(lines[at], 16) ^ 1:0{len(lines[at])}x}"
    changes = [
        (memory, "\n".join([*lines[:at], changed, *lines[at + 1 :], ""]), "a changed word"),
        (shell / f"{module}.v", re.sub(r"_tlast = (.*);", r"_tlast = ~(\1);", wrapper), "another tlast"),
        (shell / f"tb_{module}.v", bench.replace("'h20, 32'h", "'h20, 32'h1"), "other ticks"),
    ]
    for path, text, told in changes:
        kept = path.read_text()
        path.write_text(text)
        program, wrong = icarus(name, shell)
        said = run([*program, "+stall=0"], shell)[1] if program else wrong
        path.write_text(kept)
        if f"PASS {module}" in said or text == kept:
            yield f"{name}: the testbench passes in spite of {told}"


def synthesized(name, shell):
    """What Yosys doesn't synthesize."""
    for family in FAMILIES:
        script = f"read_verilog {name}.v {name}_axi.v; {family} -top {name}_axi; check -assert"
        status, told = run(["nice", "-n", "10", "yosys", "-q", "-p", script], shell)
        print(f"{name}, yosys {family}: {'passes' if status == 0 else 'FAILS'}", flush=True)
        if status:
            yield f"{name}, yosys {family}: {told[-2000:]}"


def linted(name, shell):
    """What Verilator warns of."""
    module = f"{name}_axi"
    words = ["verilator", "--lint-only", "-Wall", "--top-module", module, "waivers.vlt", f"{name}.v", f"{module}.v"]
    status, told = run(words, shell)
    print(
        f"{name}, verilator --lint-only -Wall: {'nothing to warn of' if status == 0 and not told else 'WARNS'}",
        flush=True,
    )
    if status or told:
        yield f"{name}, verilator: {told[-2000:]}"


def checked(name):
    """What is wrong of an example's shell."""
    with tempfile.TemporaryDirectory() as work:
        folder = pathlib.Path(work)
        wrong = shell_of(name, folder)
        if wrong:
            return [f"{name}: {wrong}"]
        shell, found = folder / "shell", []
        if shutil.which("iverilog"):
            found += tried(name, shell, "Icarus", icarus(name, shell))
            found += spoiled(name, shell)
        if shutil.which("verilator"):
            found += linted(name, shell)
            found += tried(name, shell, "Verilator", verilated(name, shell))
        if shutil.which("yosys"):
            found += synthesized(name, shell)
        return found


def main():
    if PYTHON is None:
        print("check_shell: no Python here has NumPy, passed over")
        return 0
    build()
    names = sys.argv[1:] or list(RUNS)
    found = [line for name in names for line in checked(name)]
    for line in found:
        print(line)
    print(f"check_shell: {len(names)} shells, {len(found)} things wrong")
    return 1 if found else 0


if __name__ == "__main__":
    sys.exit(main())
