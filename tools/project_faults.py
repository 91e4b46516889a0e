"""What can be said of a refusal of a project: of its nodes (G, L, C, B), of its joins (P) and of reports on its kernels (Q).

A finding has the place as a byte of the source, or as a line of a report, a cause, and lines that show nodes and joins.
"""
import json
import pathlib
import sys
from dataclasses import dataclass, field

sys.path.insert(0, str(pathlib.Path(__file__).resolve().parent.parent / "bench"))

import report_rules
from building_faults import type_name
from kernel_nodes import Project, counted
from places import line_of


@dataclass
class Finding:
    """What was found out about a refusal: the file that it is about, a byte or a line of it, the cause that holds, lines to show,
    keys for a hint, and a remedy in place of the row's."""

    path: str = None
    offset: int = None
    line: int = None
    cause: str = None
    more: list = field(default_factory=list)
    keys: list = field(default_factory=list)
    remedy: str = None


def table_of(case):
    return json.loads(pathlib.Path(case.file("TABLE")).read_bytes())


def numbers(text):
    return [int(word) for word in text.split()]


# The nodes of a kernel


def at_node(case, node, cause, more=None, **others):
    """A finding at a node of the kernel that the refusal names."""
    kernel = case.project.kernel(case.values["KERNEL"])
    return Finding(kernel.path, kernel.places[node], None, cause, [kernel.line(node)] if more is None else more, **others)


def many_nodes(case):
    return at_node(case, 4_096, f"the constructor makes {case.values['NODES']} nodes, and at most 4,096 may be; this is the first that is too much")


def same_port(case):
    kernel, name = case.project.kernel(case.values["KERNEL"]), case.values["NAME"]
    ports = [node for node in range(kernel.count) if kernel.call(node)[0] in ("input", "output", "scalar") and kernel.call(node)[1] == name]
    kinds = [kernel.call(node)[0] for node in ports]
    again = next(at for at, kind in enumerate(kinds) if kind in kinds[:at])
    same = [node for node, kind in zip(ports, kinds) if kind == kinds[again]]
    return at_node(case, ports[again], f"two {kinds[again]}s have the name `{name}`", kernel.lines(same))


def empty_chain(case):
    return at_node(case, int(case.values["NODE"]), "the chain that is made here has no counter: no `addCounter` follows")


def feed_lines(case, word):
    node = int(case.values["NODE"])
    kernel = case.project.kernel(case.values["KERNEL"])
    joins = [place for feed, place in kernel.run.connected if feed == node]
    lines = [kernel.line(node), *(f"  connected: {line_of(kernel.path, place)}" for place in joins)]
    return at_node(case, node, word.format(len(joins)), lines)


def twice_connected(case):
    return feed_lines(case, "the feed that is made here is connected {} times, and must be once")


def unconnected(case):
    return feed_lines(case, "no `<==` connects the feed that is made here")


def no_latency(case):
    """The first node whose operation has no row."""
    kernel, table = case.project.kernel(case.values["KERNEL"]), table_of(case)
    wanted = case.values["OPERATION"], int(case.values["WIDTH"])
    node = next(node for node in range(kernel.count) if kernel.kernel.latency(node, table)[1] == wanted)
    op, width = wanted
    rows = table.get(op, [])
    said = f"whose rows for it begin at {rows[0][0]} bits" if rows else "which has no row for it"
    remedy = f"add a row to {case.shown('TABLE')}, as `\"{op}\": [[1, 0]]` for no tick on any width"
    return at_node(case, node, f"`{op}` works on {width} bits here, and needs a latency of the table, {said}", remedy=remedy)


# Loops


def loop(case):
    """A closed walk without a schedule: each node with its line, and the sums."""
    values, table = case.values, table_of(case)
    kernel = case.project.kernel(values["KERNEL"])
    walk, latency, back = numbers(values["N"]), int(values["L"]), int(values["B"])
    sums = kernel.arithmetic(walk, table, latency, back)
    if case.code == "C1":
        cause = f"{sums}; a word on it would depend on itself" + (" and on later ones" if back < 0 else "")
        remedy = "look back somewhere on the loop: read one of its streams by `stream.offset(v, -1)`"
    else:
        cause = f"{sums}; so a word is ready {counted(latency - back)} too late for its reader"
        remedy = loop_remedy(kernel, walk, table, latency, back)
    return at_node(case, walk[0], cause, kernel.loop_lines(walk, table), remedy=remedy)


def loop_remedy(kernel, walk, table, latency, back):
    slow = sorted({op[0] for node in walk for ticks, op in [kernel.kernel.latency(node, table)] if op and ticks})
    names = ", ".join(f"`{op}`" for op in slow)
    return (
        f"look back {latency} or more on the loop instead of {back}, if the algorithm may use words that old; or give its operations ({names}) "
        f"at most {counted(back)} in total in the latency table (docs/SCHEDULES.md)"
    )


def many_bits(case):
    """Where the farthest offset is made: a word waits as long as that."""
    kernel = case.project.kernel(case.values["KERNEL"])
    offsets = [node for node in range(kernel.count) if kernel.kernel.kinds[node] == "offset"]
    far = sorted(offsets, key=lambda node: -abs(kernel.call(node)[2]) * kernel.kernel.widths[node])[:4]
    said = f"the FIFOs of each schedule hold {case.values['BITS']} bits or more, and at most 268,435,456 may be"
    if not far:
        return Finding(kernel.path, kernel.run.place, None, said)
    return at_node(case, far[0], said + "; the offsets below ask for most", kernel.lines(far))


# Joins


def deep_link(case):
    project, number = case.project, int(case.values["LINK"])
    join = next(join for join in project.joins() if join[0] == number)
    return Finding(project.path, join[3], None, f"this link would hold {case.values['WORDS']} words, and at most 65,536 may be", [project.join_line(join)])


def same_name(case):
    """The call that makes a name a second time."""
    manager, name = case.project.built.manager, case.values["NAME"]
    kinds = (("kernels", [kernel[0] for kernel in manager.kernels], "kernels"), ("from_cpu", manager.from_cpu, "streams from the CPU"),
             ("to_cpu", manager.to_cpu, "streams to the CPU"))
    for kind, names, what in kinds:
        places = [place for other, place in zip(names, manager.made_at[kind]) if other == name]
        if len(places) > 1:
            lines = [f"  made: {line_of(case.project.path, place)}" for place in places]
            return Finding(case.project.path, places[1], None, f"two {what} have the name `{name}`", lines)
    return None


def kernel_count(case):
    places, count = case.project.built.manager.made_at["kernels"], int(case.values["KERNELS"])
    if not places:
        return Finding(case.project.path, case.project.built.manager.place, None, "the manager adds no kernel")
    return Finding(case.project.path, places[64], None, f"the manager adds {count} kernels, and at most 64 may be; this is the first that is too much")


def end_of(case, end):
    """The joins that an end stands in, by how a refusal says it."""
    return [join for join in case.project.joins() if end in (case.project.end(join[1]), case.project.end(join[2]))]


def at_joins(case, joins, cause, at=0, **others):
    return Finding(case.project.path, joins[at][3], None, cause, [case.project.join_line(join) for join in joins], **others)


def ports_of(kernel, kind):
    return [call[1] for call in kernel.run.calls if call[0] == kind]


def unknown_port(case):
    name, port = case.values["KERNEL"], case.values["PORT"]
    kernel = case.project.kernel(name)
    for join in end_of(case, f"{name}.{port}"):
        kind = "input" if case.project.end(join[2]) == f"{name}.{port}" else "output"
        names = ports_of(kernel, kind)
        if port not in names:
            has = f"its {kind}s are {', '.join(f'`{other}`' for other in names)}" if names else f"it has no {kind}"
            return at_joins(case, [join], f"the kernel `{name}` has no {kind} `{port}`; {has}")
    return None


def joined_twice(case):
    return at_joins(case, end_of(case, case.values["END"]), f"`{case.values['END']}` stands in more than one join", 1)


def through(case):
    joins = [join for join in end_of(case, case.values["STREAM"]) if join[1][0] == join[2][0] == "CPU"]
    return at_joins(case, joins, "this join leads from the CPU to the CPU, and through no kernel")


def other_types(case):
    project = case.project
    join = next(join for join in end_of(case, case.values["END"]) if project.end(join[2]) == case.values["END"] and join[0] is not None)
    kernels = project.kernels
    from_ = next(call[-1] for call in kernels[join[1][0]].run.calls if call[0] == "output" and call[1] == join[1][1])
    to = next(call[2] for call in kernels[join[2][0]].run.calls if call[0] == "input" and call[1] == join[2][1])
    return at_joins(case, [join], f"the output is of `{type_name(from_)}`, and the input of `{type_name(to)}`")


def loose_end(case):
    """The port, or the stream of the CPU, that no join has."""
    project, end = case.project, case.values["END"]
    name, _, port = end.rpartition(".")
    if name:
        kernel = project.kernel(name)
        node = next(node for node in range(kernel.count) if kernel.call(node)[:2] in (("input", port), ("output", port)))
        remedy = f"join it by `<==` in the manager, or take the port out of the class of `{name}`"
        return Finding(project.path, kernel.places[node], None, f"the {kernel.call(node)[0]} `{end}` is joined to nothing", [kernel.line(node)], remedy=remedy)
    manager = project.built.manager
    for kind, names in (("from_cpu", manager.from_cpu), ("to_cpu", manager.to_cpu)):
        if end in names:
            place = manager.made_at[kind][names.index(end)]
            return Finding(project.path, place, None, f"the stream of the CPU `{end}` is joined to nothing")
    return None


def kernel_loop(case):
    names = case.values["KERNEL"].split()
    steps = set(zip(names, names[1:] + names[:1]))
    project = case.project
    kernels = [name for name, *_ in project.built.manager.kernels]
    links = [join for join in project.joins() if join[0] is not None and (kernels[join[1][0]], kernels[join[2][0]]) in steps]
    return at_joins(case, links, f"the kernels {', '.join(f'`{name}`' for name in names)} wait for one another in a loop")


# Reports


def report_lines(case):
    return pathlib.Path(case.file("REPORT")).read_bytes().decode("latin-1").split("\n")


def no_report(case):
    """What a line of a report lacks."""
    number, lines = int(case.values["LINE"]), report_lines(case)
    text = lines[number - 1] if number <= len(lines) else ""
    if number >= len(lines):
        is_open = number == len(lines) and text
        said = "the line has no end: a line feed is missing behind it" if is_open else "the report ends before this line"
    elif number == 1:
        said = "the first line of a report is `maxjc-report 1`"
    elif lines[number - 2] == "end":
        said = "nothing follows the line `end`, and this does"
    elif text.split()[:1] == ["kernel"] or text == "end":
        said = "a `time` or `flow` line is missing before this one: there are as many `time` lines as nodes, and two `flow` lines for each edge"
    else:
        said = f"`{text[:40]}` isn't the line that follows there: `kernel`, then each `time`, then each `flow`, then `kernel` or `end`"
    return Finding(case.file("REPORT"), None, number, said)


def other_report(case):
    """What of a report doesn't fit the kernels."""
    number, table = int(case.values["LINE"]), table_of(case)
    parts = report_rules.read(pathlib.Path(case.file("REPORT")).read_bytes())
    kernels, first = case.project.kernels, 2
    for at, part in enumerate(parts):
        if first <= number < first + len(part.lines()):
            return Finding(case.file("REPORT"), None, number, difference(part, kernels[at] if at < len(kernels) else None, number - first, table))
        first += len(part.lines())
    return Finding(case.file("REPORT"), None, number, f"the report ends with {len(parts)} kernels, and the source has {len(kernels)}")


def difference(part, kernel, at, table):
    if kernel is None:
        return f"the report has a further kernel, `{part.name}`, which the source hasn't"
    if at:
        return f"the time of node {at - 1} isn't from 0 to 2^46"
    problem = report_rules.Problem(kernel.name, kernel.run.calls, table)
    for what, wrote, has in (("name", part.name, kernel.name), ("number of nodes", part.nodes, problem.count),
                             ("number of edges", part.edges, len(problem.kernel.edges)), ("number of bits", part.bits, problem.cost(part.times))):
        if wrote != has:
            source = "what these times cost" if what == "number of bits" else "that of the source's kernel"
            return f"the {what} is {wrote}, and {source} is {has}" if source.startswith("what") else f"the {what} is {wrote}, and {source} {has}"
    return None


def part_of(case):
    """The part of the report that is about a kernel, the number of its first line, its nodes and its problem."""
    parts, first = report_rules.read(pathlib.Path(case.file("REPORT")).read_bytes()), 2
    at = case.project.names.index(case.values["KERNEL"])
    for part in parts[:at]:
        first += len(part.lines())
    kernel = case.project.kernels[at]
    return parts[at], first, kernel, report_rules.Problem(kernel.name, kernel.run.calls, table_of(case))


def broken_arc(case):
    """The arc whose ends stand too near: its edge, with both nodes, their times and what must lie between."""
    part, first, kernel, problem = part_of(case)
    number = int(case.values["ARC"])
    start, end, ahead = problem.kernel.edges[number // 2]
    times = part.times
    need = problem.ticks[start] + ahead
    cause = (
        f"arc {number} belongs to edge {number // 2}, from node {start} to node {end}: the first word that node {end} reads there is ready at time "
        f"{times[start] + need}, and it begins at time {times[end]}"
    )
    return Finding(case.file("REPORT"), None, first + 1 + end, cause, [kernel.line(start, f", time {times[start]}"), kernel.line(end, f", time {times[end]}")])


def broken_flow(case):
    """The node that sends another amount than it should, with the lines of its flows."""
    part, first, kernel, problem = part_of(case)
    node, count = int(case.values["NODE"]), problem.count
    arcs = [number for number, arc in enumerate(problem.arcs) if node in arc[:2]]
    sends = sum(part.flow[number] for number in arcs if problem.arcs[number][0] == node)
    takes = sum(part.flow[number] for number in arcs if problem.arcs[number][1] == node)
    what = f"node {node}" if node < count else f"the end of the words of node {node - count}"
    cause = f"{what} sends {sends} and takes {takes}, and the difference must be {problem.surplus[node]}"
    more = [kernel.line(node % count)]
    more += [f"  flow {part.flow[number]} on arc {number}, line {first + 1 + count + number} of the report" for number in arcs[:12]]
    line = first + 1 + count + arcs[0] if arcs else first
    return Finding(case.file("REPORT"), None, line, cause, more)


def other_cost(case):
    part, first, _, _ = part_of(case)
    cost, value = case.values["COST"], case.values["VALUE"]
    cause = f"the times cost {cost} bits, and the flow shows only that {value} are needed: so nothing shows that these times are the best"
    return Finding(case.file("REPORT"), None, first, cause)


FINDERS = {
    "G1": unconnected, "G2": twice_connected, "G3": same_port, "G4": many_nodes, "G6": empty_chain, "L1": no_latency, "C1": loop, "C2": loop, "B1": many_bits,
    "P1": unknown_port, "P2": loose_end, "P3": joined_twice, "P4": other_types, "P5": kernel_loop, "P6": deep_link, "P7": same_name, "P8": through,
    "P9": kernel_count, "Q1": no_report, "Q2": other_report, "Q3": broken_arc, "Q4": broken_flow, "Q5": other_cost,
}


def unguarded(case, name, node, tick):
    """The node whose control or store is undefined in a run, and what that control is."""
    kernel = case.project.kernel(name)
    call = kernel.call(node)
    control = {"input": lambda: call[3], "output": lambda: call[3], "hold": lambda: call[2]}.get(call[0], lambda: None)()
    more = [kernel.line(node)] + ([kernel.line(control, ", its control")] if control is not None else [])
    cause = f"in tick {tick} the {'store' if call[0] == 'hold' else 'control'} of node {node} is undefined, so nothing is promised of the words of this run"
    remedy = "choose something else for it in the first ticks, or where its operands are undefined: `control.count.simpleCounter(40) < n ? 0 : ..`"
    return Finding(kernel.path, kernel.places[node], None, cause, more, remedy=remedy)


def unbalanced(case, number, how, tick):
    """The link that runs dry or full at the report's times."""
    project = case.project
    join = next(join for join in project.joins() if join[0] == number)
    source, target = project.end(join[1]), project.end(join[2])
    kernel, what = (target, "reads, and no word is there") if how == "dry" else (source, "writes, and the link is full")
    cause = (
        f"link {number} runs {how}: in its tick {tick} the kernel of `{kernel}` {what}. All words that leave are right; only how many edges the "
        "run takes isn't proved"
    )
    remedy = (
        "nothing, where the simulation is done: every change of rate between two kernels does this. Where it isn't done, give the kernels such ticks "
        "that as many words are written to the link as are read of it"
    )
    return Finding(project.path, join[3], None, cause, [project.join_line(join)], remedy=remedy)
