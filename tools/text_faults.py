"""What can be said of a refusal of a Verilog text (V), and the ports of one."""
import pathlib
import re

from project_faults import Finding

NAME = r"[A-Za-z_][A-Za-z0-9_$]*"
TOKEN = re.compile(rb"(?:\s+|//[^\n]*|/\*.*?\*/)+|" + NAME.encode() + rb"|[0-9]+'h[0-9a-fA-F]+|[0-9]+|<=|==|.", re.S)
PORT = re.compile(r"(input|output)\s+wire\s*\[(\d+):0\]\s*(" + NAME + ")")
MODULE = re.compile(r"\bmodule\s+(" + NAME + r")\s*\((.*?)\)\s*;", re.S)
DECLARED = re.compile(r"\b(wire|reg)\b\s*\[\d+:0\]\s*(" + NAME + ")")
MOST_SHOWN = 6


def data_of(case):
    return pathlib.Path(case.file("TEXT")).read_bytes()


class Ports:
    """The ports of a run: kernels, scalars, inputs and outputs, each of the last three with its bits."""

    def __init__(self):
        self.kernels, self.scalars, self.inputs, self.outputs = [], {}, {}, {}


def ports_of_text(text):
    """The ports of the last module of a text."""
    found = Ports()
    for _, width, name in PORT.findall(MODULE.findall(text)[-1][1]):
        parts, bits = name.split("$"), int(width) + 1
        if parts[0] == "ticks":
            found.kernels.append(parts[1])
        elif parts[0] == "scalar":
            found.scalars[f"{parts[1]}.{parts[2]}"] = bits
        elif parts[0] in ("in", "out") and parts[-1] == "data":
            (found.inputs if parts[0] == "in" else found.outputs)[parts[1]] = bits
    return found


def ports_of_project(project):
    """The ports of a run of a source's project."""
    found, manager = Ports(), project.built.manager
    found.kernels = project.names
    for kernel in project.kernels:
        found.scalars.update({f"{kernel.name}.{call[1]}": call[2].width for call in kernel.run.calls if call[0] == "scalar"})
        if not manager:
            found.inputs = {call[1]: call[2].width for call in kernel.run.calls if call[0] == "input"}
            found.outputs = {call[1]: call[-1].width for call in kernel.run.calls if call[0] == "output"}
    if manager:
        for _, source, target, _ in project.joins():
            if source[0] == "CPU":
                calls = project.kernels[target[0]].run.calls
                found.inputs[source[1]] = next(call[2].width for call in calls if call[:2] == ("input", target[1]))
            if target[0] == "CPU":
                calls = project.kernels[source[0]].run.calls
                found.outputs[target[1]] = next(call[-1].width for call in calls if call[:2] == ("output", source[1]))
    return found


# Tokens


def no_token(case):
    data, place = data_of(case), int(case.values["PLACE"])
    if data[place : place + 2] == b"/*":
        return Finding(case.file("TEXT"), place, None, "the comment that begins here doesn't end")
    mark = chr(data[place])
    shown = f"`{mark}`" if mark.isprintable() and data[place] < 127 else f"the byte {data[place]}"
    return Finding(case.file("TEXT"), place, None, f"no token of a text begins with {shown}", remedy=written(data, "take it out"))


def written(data, else_):
    """The remedy for a text that isn't one: that of a source, say."""
    if re.match(rb"\s*(package|import|public|class)\b", data):
        return "give the Verilog text that `compile` wrote to OUT: this file is a source"
    return else_


def misplaced(case):
    data, place = data_of(case), int(case.values["PLACE"])
    before, found = None, None
    for token in TOKEN.finditer(data):
        if token.start() >= place:
            found = token.group().decode("latin-1")
            break
        if not re.match(rb"\s|//|/\*", token.group()):
            before = token.group().decode("latin-1")
    said = f"`{found}` can't stand here" if found else "the text ends here"
    said += f", behind `{before[:40]}`" if before else ", at the start: a text begins with `module`"
    number = re.match(r"(\d+)'h([0-9a-fA-F]+)$", found or "")
    if number and (not 1 <= int(number[1]) <= 128 or int(number[2], 16) >= 2 ** int(number[1])):
        said = f"the number `{found}` is out of range: it has 1 to 128 bits, and is below two to the power of these"
    return Finding(case.file("TEXT"), place, None, said, remedy=written(data, "mend the syntax there (docs/FORMATS.md, \"The Verilog subset\")"))


# Rules


def lines_with(data, name):
    """(byte, line) of each line of a text that has a name, each once."""
    found = {}
    for match in re.finditer(rb"(?<![\w$])" + re.escape(name.encode()) + rb"(?![\w$])", data):
        start = data.rfind(b"\n", 0, match.start()) + 1
        found.setdefault(start, (match.start(), data[start : (data.find(b"\n", start) + 1 or len(data) + 1) - 1].decode("latin-1").strip()))
    return list(found.values())


def shown_lines(case, data, found):
    return [f"  {case.shown('TEXT')}:{data.count(chr(10).encode(), 0, place) + 1}: {line[:100]}" for place, line in found[:MOST_SHOWN]]


def at_lines(case, name, cause, chosen=lambda line: True, at=0, **others):
    """A finding at one of the lines of a text that have a name, which are shown."""
    data = data_of(case)
    found = [(place, line) for place, line in lines_with(data, name) if chosen(line)] or lines_with(data, name)
    if not found:
        return Finding(case.file("TEXT"), None, None, cause)
    return Finding(case.file("TEXT"), found[min(at, len(found) - 1)][0], None, cause, shown_lines(case, data, found), **others)


def is_declared(line):
    return bool(DECLARED.search(line))


def drives(name):
    """Whether a line gives a net its word: an assignment, or an instance that has it as a port."""
    return lambda line: line.startswith(f"assign {name} ") or f"({name})" in line or re.match(r"if \(\S+\) " + re.escape(name) + r"\b", line)


def unknown_name(case):
    name, data = case.values["NAME"], data_of(case)
    lines = lines_with(data, name)
    for module, ports in MODULE.findall(data.decode("latin-1")):
        if name in ("clk", "reset") and not re.search(r"input\s+wire\s*\[0:0\]\s*" + name + r"\b", ports):
            return at_lines(case, module, f"the module `{module}` lacks the input `{name}` of 1 bit")
    if any(f".{name}(" in line.replace(" ", "") for _, line in lines):
        said = f"an instance names the port `{name}` twice, or not at all, or the module has no such port"
        return at_lines(case, name, said, lambda line: f".{name}" in line)
    if not any(is_declared(line) for _, line in lines):
        return at_lines(case, name, f"`{name}` is used here, and declared nowhere")
    return at_lines(case, name, f"`{name}` is used before it is declared, in another module, or as what it isn't declared as")


def other_width(case):
    name = case.values["NAME"]
    return at_lines(case, name, f"the widths of what is assigned to `{name}`, or joined to it, don't agree", drives(name))


def two_drivers(case):
    name = case.values["NAME"]
    return at_lines(case, name, f"`{name}` has more drivers than it may have", drives(name), 1)


def closed_way(case):
    names = case.values["NAME"].split()
    data = data_of(case)
    found = [line for name in names for line in lines_with(data, name) if line[1].startswith(f"assign {name} ")]
    said = f"the nets {', '.join(f'`{name}`' for name in names[:8])} feed one another, and no register stands between"
    return Finding(case.file("TEXT"), found[0][0] if found else None, None, said, shown_lines(case, data, found))


def no_driver(case):
    name = case.values["NAME"]
    return at_lines(case, name, f"`{name}` is declared here, and nothing gives it its word", is_declared)


def declared_again(case):
    name = case.values["NAME"]
    return at_lines(case, name, f"`{name}` is declared twice", lambda line: is_declared(line) or line.startswith(f"module {name}"), 1)


RULES = {"1": unknown_name, "2": other_width, "3": two_drivers, "4": closed_way, "5": no_driver, "6": declared_again}


def broken_rule(case):
    return RULES[case.line.split()[1]](case)


def other_port(case):
    """The port of the last module that a run hasn't there."""
    name = case.values["NAME"]
    text = data_of(case).decode("latin-1")
    module, ports = MODULE.findall(text)[-1]
    names = [port[2] for port in PORT.findall(ports)]
    order = "`clk`, `reset`, for each kernel `hold$K` and `ticks$K`, then scalars, inputs, outputs and `done`"
    said = f"the last module, `{module}`, has the port `{name}` where a run's ports ({order}) have another or none"
    if name not in names:
        said = f"the ports of the last module, `{module}`, end before `{name}`; a run's ports are {order}"
        return Finding(case.file("TEXT"), text.rfind(f"module {module}"), None, said)
    place = text.rfind(f"module {module}")
    return Finding(case.file("TEXT"), place + re.search(r"(?<![\w$])" + re.escape(name) + r"(?![\w$])", text[place:]).start(), None, said)


def many_cells(case):
    """The greatest memories of a design that is too large."""
    data = data_of(case)
    found = [(int(match[1]) + 1, match.start(), match.group().decode()) for match in re.finditer(rb"reg \[\d+:0\] [\w$]+ ?\[0:(\d+)\]", data)]
    found.sort(key=lambda memory: -memory[0])
    said = f"the design has {case.values['NUMBER']} wires, registers and memory words, and at most 67,108,864 may be"
    place = found[0][1] if found else max(data.rfind(b"module "), 0)
    return Finding(case.file("TEXT"), place, None, said, shown_lines(case, data, [(at, line) for _, at, line in found]))


FINDERS = {"V1": no_token, "V2": misplaced, "V3": broken_rule, "V4": other_port, "V5": many_cells}
