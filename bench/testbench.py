#!/usr/bin/env python3
"""Verilog testbenches that drive a text as a run of `maxjc simulate` does, for Icarus.

The testbench offers the same words, accepts and holds in the same edges (by the program's pattern of
stalls), makes one reset edge first, looks at `done` before each edge, and writes the words that leave
each output, one a line in hexadecimal digits, to a file of its own. Registers and memory words hold the
low bits of the run file's `fill` at first, also those of instances. It says how the run ended, in the words
of `maxjc simulate`.
"""
import json
import pathlib
import re

MASK = 2**64 - 1
NAME = r"([A-Za-z_][A-Za-z0-9_$]*)"
COMMENT = re.compile(r"//[^\n]*|/\*.*?\*/", re.S)
MODULE = re.compile(rf"\bmodule\s+{NAME}\s*\((.*?)\)\s*;(.*?)\bendmodule\b", re.S)
PORT = re.compile(rf"\b(input|output)\s+wire\s*\[\s*(\d+)\s*:\s*0\s*\]\s*{NAME}")
STORE = re.compile(rf"\breg\s*\[\s*(\d+)\s*:\s*0\s*\]\s*{NAME}\s*(?:\[\s*0\s*:\s*(\d+)\s*\])?\s*;")
INSTANCE = re.compile(rf"{NAME}\s+{NAME}\s*\(\s*\.")


def stalls(pick, edge, port):
    """The program's pattern: whether a port stalls in an edge."""
    if pick == 0:
        return False
    z = (pick + edge * 0x9E3779B97F4A7C15 + port * 0xBF58476D1CE4E5B9) & MASK
    z ^= z >> 31
    z = z * 0x94D049BB133111EB & MASK
    return z >> 62 == 0


def modules_of(text):
    """The modules: (name, text of the ports, text of the items) in order."""
    return MODULE.findall(COMMENT.sub(" ", text))


def ports_of(text):
    """The ports of the last module: (direction, width, name) in order."""
    _, ports, _ = modules_of(text)[-1]
    return [(way, int(high) + 1, name) for way, high, name in PORT.findall(ports)]


def storage_of(text):
    """The registers and memories of the last module and of all its instances: (path, width, depth), where
    a register has no depth."""
    modules = {name: items for name, _, items in modules_of(text)}

    def inside(name, path):
        for high, store, last in STORE.findall(modules[name]):
            yield f"{path}\\{store} ", int(high) + 1, int(last) + 1 if last else None
        for module, instance in INSTANCE.findall(modules[name]):
            yield from inside(module, f"{path}\\{instance} .")

    return inside(list(modules)[-1], "")


def fill_lines(text, fill):
    """Assignments of the low bits of the fill to the registers and memory words of `dut`."""
    for path, width, depth in storage_of(text):
        word = f"{width}'h{fill % 2**width:x}"
        if depth is None:
            yield f"dut.{path} = {word};"
        else:
            yield f"for (place = 0; place < {depth}; place = place + 1) dut.{path}[place] = {word};"


def streams(ports, begin):
    return [(name[len(begin) : -len("$data")], width) for _, width, name in ports if name.startswith(begin) and name.endswith("$data")]


def hex_of(value, width):
    return f"{value:0{(width + 3) // 4}x}"


class Bench:
    """A text and a run, from which the parts of a testbench are written."""

    def __init__(self, text, run, folder, edges):
        self.text, self.run, self.folder, self.edges = text, run, pathlib.Path(folder), edges
        self.ports = ports_of(text)
        self.inputs, self.outputs = streams(self.ports, "in$"), streams(self.ports, "out$")
        self.kernels = [name[len("hold$") :] for _, _, name in self.ports if name.startswith("hold$")]
        self.words = [[int(line, 16) for line in pathlib.Path(run["inputs"][name]).read_text().split()] for name, _ in self.inputs]
        self.count = len(self.inputs) + len(self.outputs) + len(self.kernels)

    def write_words(self):
        """Writes the stalls of each edge, and the words of each input, into files that the testbench reads."""
        pick = self.run.get("pattern", 0)
        with open(self.folder / "stalls.mem", "w") as out:
            for edge in range(self.edges + 1):
                bits = sum(stalls(pick, edge, port) << port for port in range(self.count))
                out.write(f"{bits:x}\n")
        for k, words in enumerate(self.words):
            with open(self.folder / f"in{k}.mem", "w") as out:
                out.writelines(f"{word:x}\n" for word in words or [0])

    def declarations(self):
        for way, width, name in self.ports:
            kind = "reg" if way == "input" else "wire"
            yield f"{kind} [{width - 1}:0] \\{name} ;"
        joined = ", ".join(f".\\{name} (\\{name} )" for _, _, name in self.ports)
        yield f"\\{modules_of(self.text)[-1][0]} dut ({joined});"
        yield f"reg [{max(self.count, 1) - 1}:0] stalled [0:{self.edges}];"
        yield "integer edge_number; integer place; reg finished;"
        for k, (_, width) in enumerate(self.inputs):
            yield f"reg [{width - 1}:0] words{k} [0:{max(len(self.words[k]), 1) - 1}]; integer at{k}; integer count{k};"
        for k, _ in enumerate(self.outputs):
            yield f"integer file{k};"
        yield "task idle; begin"
        for way, _, name in self.ports:
            if way == "input" and not name.startswith(("ticks$", "scalar$")):
                yield f"\\{name} = 0;"
        yield "end endtask"

    def start(self):
        """Contents, words and constant ports, and the reset edge."""
        yield from fill_lines(self.text, int(self.run.get("fill", "0"), 16))
        yield f'$readmemh("{self.folder}/stalls.mem", stalled);'
        for k, words in enumerate(self.words):
            yield f'$readmemh("{self.folder}/in{k}.mem", words{k}); at{k} = 0; count{k} = {len(words)};'
        for k, _ in enumerate(self.outputs):
            yield f'file{k} = $fopen("{self.folder}/out{k}.txt", "w");'
        for kernel in self.kernels:
            yield f"\\ticks${kernel} = 48'd{self.run['ticks'][kernel]};"
        for _, width, name in self.ports:
            if name.startswith("scalar$"):
                _, kernel, scalar = name.split("$")
                yield f"\\{name} = {width}'h{self.run['scalars'][kernel + '.' + scalar]};"
        yield "idle; \\reset = 1; #1; \\clk = 1; #1; \\clk = 0; \\reset = 0;"
        yield "edge_number = 0; finished = 0;"

    def edge(self):
        """One edge, or the end of the run where `done` is 1 or all edges are made."""
        yield "idle; #1;"
        yield 'if (\\done === 1) begin finished = 1; $display("done after %0d edges", edge_number); end'
        yield f'else if (edge_number == {self.edges}) begin finished = 1; $display("not done after %0d edges", edge_number); end'
        yield "else begin"
        stalled = (f"stalled[edge_number][{port}]" for port in range(self.count))
        for k, (name, _) in enumerate(self.inputs):
            yield f"if (!{next(stalled)} && at{k} < count{k}) begin \\in${name}$valid = 1; \\in${name}$data = words{k}[at{k}]; end"
        for name, _ in self.outputs:
            yield f"\\out${name}$ready = !{next(stalled)};"
        for kernel in self.kernels:
            yield f"\\hold${kernel} = {next(stalled)};"
        yield "#1;"
        for k, (name, _) in enumerate(self.inputs):
            yield f"if (\\in${name}$valid && \\in${name}$ready ) at{k} = at{k} + 1;"
        for k, (name, _) in enumerate(self.outputs):
            yield f'if (\\out${name}$valid && \\out${name}$ready ) $fdisplay(file{k}, "%h", \\out${name}$data );'
        yield "\\clk = 1; #1; \\clk = 0; edge_number = edge_number + 1;"
        yield "end"


def testbench(text, run, folder, edges):
    """A testbench for the text, with the files of its words written into the folder: its path, and the inputs and outputs of
    the text as (name, width)."""
    bench = Bench(text, run, folder, edges)
    bench.write_words()
    lines = ["`timescale 1ns/1ns", "module testbench;", *bench.declarations(), "initial begin", *bench.start()]
    lines += ["while (!finished) begin", *bench.edge(), "end"]
    lines += [f"$fclose(file{k});" for k, _ in enumerate(bench.outputs)]
    lines.append("$finish; end endmodule")
    path = bench.folder / "testbench.v"
    path.write_text("\n".join(lines) + "\n")
    return path, bench.inputs, bench.outputs


def read_run(path):
    return json.loads(pathlib.Path(path).read_text())
