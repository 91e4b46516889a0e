#!/usr/bin/env python3
"""Compares the evaluator of docs/LANGUAGE.md with worked sources: what their constructors do.

They are those of bench/building_sources.txt and those under bench/kernels, with their nodes.

    bench/check_building.py               compares the evaluator with them
    bench/check_building.py --program     compares what the built program says of them too
    bench/check_building.py --json        prints them, with their refusals, as JSON
"""
import json
import pathlib
import sys
import tempfile
from dataclasses import dataclass

import building_run
from random_programs import program_line, wanted_of
from trials import PROGRAM, TOP

KERNELS = """class Pass extends Kernel {
  Pass(KernelParameters p) {
    super(p);
    DFEVar x = io.input("x", dfeUInt(8));
    io.output("y", x, dfeUInt(8));
  }
}
class Take extends Kernel { Take(KernelParameters p, int n, boolean b, DFEType t) { super(p); } }
"""


@dataclass
class Worked:
    name: str
    source: str
    code: str
    place: int
    line: str


def whole(name, body):
    """The source of a table's entry."""
    lines = body.splitlines()
    if any(line.lstrip("@").startswith(("class ", "public ", "import ")) for line in lines):
        return body
    inner = "\n".join("    " + line for line in lines)
    kind, parent, first = ("M", "CustomManager", "Engine") if name.startswith("manager") else ("K", "Kernel", "Kernel")
    own = f"class {kind} extends {parent} {{\n  {kind}({first}Parameters p) {{\n    super(p);\n{inner}\n  }}\n}}\n"
    return own + (KERNELS if kind == "M" else "")


def worked_of(name, wanted, body):
    source = whole(name, body)
    place = source.find("@")
    source = source.replace("@", "")
    if wanted == "fine":
        return Worked(name, source, None, None, None)
    code, *values = wanted.split()
    has_place = code.startswith("E") and code != "E7"
    if has_place != (place >= 0):
        raise ValueError(f"{name}: a place is missing, or is too much")
    told = ([str(place)] if has_place else []) + values
    return Worked(name, source, code, place if has_place else None, " ".join(["refused", code, *told]))


def worked_sources():
    """The table's sources."""
    text = (TOP / "bench/building_sources.txt").read_text()
    for part in text[text.index("\n# ") :].split("\n# ")[1:]:
        head, body = part.split("\n", 1)
        name, wanted = head.rsplit(" | ", 1)
        yield worked_of(name, wanted, body.strip("\n"))


def kernel_sources():
    """The first example, and the kernels under bench/kernels: all runs but one end well."""
    for path in [TOP / "examples/double/double.maxj", *sorted((TOP / "bench/kernels").glob("*.maxj"))]:
        line = "refused E7" if path.stem == "endless" else None
        yield Worked(f"kernels: {path.stem}", path.read_text(), line and "E7", None, line)


def node_lines(calls):
    """What each call of a kernel's run makes, in the words of bench/kernels/nodes.txt."""
    lines, node = [], 0
    for kind, *values in calls:
        if kind == "connect":
            lines.append(f"feed {values[0]} is {values[1]}")
            continue
        args, word = [], ""
        if kind in ("input", "output", "scalar"):
            word = values[0]
            args = [arg for arg in (values[1:-1] if kind == "output" else values[2:]) if arg is not None]
        elif kind == "operation":
            kind, mode, _, args, _ = values
            word = mode if kind == "round" else ""
        elif kind == "constant":
            word = str(values[0])
        elif kind == "offset":
            args, word = [values[0]], str(values[1])
        elif kind in ("hold", "chain counter"):
            args = values[:2] if kind == "hold" else values[:1]
        made = " ".join(part for part in (str(node), kind, word) if part)
        lines.append(made + (f" of {' '.join(map(str, args))}" if args else ""))
        node += 1
    return sorted(lines, key=lambda line: line.startswith("feed "))


def worked_nodes():
    """The nodes of the kernels under bench/kernels: the file, the kernel, and its nodes line by line."""
    text = (TOP / "bench/kernels/nodes.txt").read_text()
    for part in text.split("\n# ")[1:]:
        head, *lines = part.strip("\n").split("\n")
        stem, kernel = head.split()
        yield TOP / ("examples/double" if stem == "double" else "bench/kernels") / f"{stem}.maxj", kernel, lines


def wrong_nodes():
    """What is wrong of the nodes that the evaluator makes."""
    for path, kernel, wanted in worked_nodes():
        found = node_lines(dict(building_run.build(path.read_text()).kernels)[kernel])
        if found != wanted:
            yield f"{path.stem} {kernel}: the nodes are {found}, and not {wanted}"


def wrong_evaluator(all_worked):
    for worked in all_worked:
        line = building_run.build(worked.source).line
        if line != worked.line:
            yield f"{worked.name}: the evaluator says {line}, and not {worked.line}"


def wrong_program(all_worked):
    if not PROGRAM.exists():
        print("the program isn't built here, passed over")
        return
    with tempfile.TemporaryDirectory() as folder:
        for worked in all_worked:
            said = program_line(pathlib.Path(folder), worked.source)
            built = building_run.build(worked.source)
            code, right = wanted_of(built).judged(said)
            if not right:
                yield f"{worked.name}: the program says {said}, and not {worked.line or code}"


def as_json(worked):
    """An entry for tests: lines and columns are from 1, the place from 0."""
    line = column = None
    if worked.place is not None:
        before = worked.source[: worked.place]
        line, column = before.count("\n") + 1, worked.place - before.rfind("\n")
    nodes = {kernel: lines for path, kernel, lines in worked_nodes() if worked.name == f"kernels: {path.stem}"}
    return {
        "name": worked.name, "source": worked.source, "code": worked.code, "place": worked.place, "line": line, "column": column,
        "refusal": worked.line, "manager": "extends CustomManager" in worked.source, "nodes": nodes or None,
    }


def main():
    all_worked = [*worked_sources(), *kernel_sources()]
    if "--json" in sys.argv:
        print(json.dumps([as_json(worked) for worked in all_worked], indent=1))
        return 0
    wrong = [*wrong_nodes(), *wrong_evaluator(all_worked)]
    if "--program" in sys.argv:
        wrong += wrong_program(all_worked)
    print("".join(f"{line}\n" for line in wrong), end="")
    print(f"{len(all_worked)} worked sources, {len(wrong)} of them told otherwise")
    return 1 if wrong else 0


if __name__ == "__main__":
    sys.exit(main())
