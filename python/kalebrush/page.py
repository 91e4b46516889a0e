"""One self-contained HTML page of a project: no other file, no server, no network."""
from __future__ import annotations

import base64
import html
import io
import pathlib
from dataclasses import dataclass
from typing import Any

import numpy as np

from kalebrush import __version__
from kalebrush.language import Kernel
from kalebrush.project import Comparison, Project
from kalebrush.schedule import Node, Schedule
from kalebrush.types import WordType

HERE = pathlib.Path(__file__).resolve().parent
MOST_WORDS, MOST_POINTS = 512, 1500


def escaped(value: Any) -> str:
    """A value as text of a page."""
    return html.escape(str(value))


@dataclass
class RunShown:
    """A run on the page: its inputs, how it compares, and the shapes of pictures that came in."""

    inputs: dict[str, np.ndarray]
    comparison: Comparison
    shapes: list[tuple[int, ...]]


def page(project: Project, run: RunShown | None = None) -> str:
    """The page's text."""
    parts = [heading(project, run), kernels(project)]
    parts.append(links(project))
    if run:
        parts.append(words(project, run))
    body = "\n".join(parts)
    title = escaped(project.source.stem)
    style, script = ((HERE / name).read_text(encoding="utf-8") for name in ("page.css", "page.js"))
    told = "from what maxjc says. The program is proved; this page isn't part of that."
    foot = f"<footer>Written by kalebrush {__version__} {told}</footer>"
    head = f'<html lang="en"><head><meta charset="utf-8"><title>{title}</title>\n<style>\n{style}</style></head>'
    return f"<!DOCTYPE html>\n{head}\n<body>\n{body}\n{foot}\n<script>\n{script}</script>\n</body></html>\n"


def heading(project: Project, run: RunShown | None) -> str:
    """The title, and what the program says in a few words."""
    least = project.check()
    chips = [f"<span>kernel {escaped(name)}: {bits} FIFO bits, the fewest</span>" for name, bits in least.items()]
    chips += [f"<span>link {link.link.number}: depth {link.depth}</span>" for link in project.links]
    if run:
        found = run.comparison
        chips.append(f"<span>{escaped(found.simulated.line)}</span>")
        chips += [f"<span>{escaped(line)}</span>" for line in found.expected.lines]
        if found.agrees:
            chips.append(f"<span>all {found.agreeing} defined words agree</span>")
        chips += [f'<span class="bad">{escaped(difference)}</span>' for difference in found.differences]
    return f'<h1>{escaped(project.source.name)}</h1>\n<p class="chips">{"".join(chips)}</p>'


# kernels


def kernels(project: Project) -> str:
    """For each kernel the source with its schedule beside it, and its nodes."""
    names = [kernel.name for kernel in project.design.kernels]
    buttons = "".join(f'<button data-show="{name}">{name}</button>' for name in names)
    source = project.source.read_text(encoding="utf-8").splitlines()
    parts = ["<h2>Source and schedule</h2>", f"<nav>{buttons}</nav>"]
    parts.append(
        '<p class="legend">Beside each line: when its nodes make their first words<b></b>and how long these wait'
        '<b class="wait"></b>, in ticks; and the bits of the FIFOs in which they wait.</p>'
    )
    for kernel, schedule in zip(project.design.kernels, project.schedules):
        parts.append(f'<section data-kernel="{kernel.name}">')
        parts += [source_table(source, kernel, schedule), node_table(schedule), "</section>"]
    return "\n".join(parts)


def source_table(source: list[str], kernel: Kernel, schedule: Schedule) -> str:
    """The lines of the source, with bars and bits."""
    of_line: dict[int, list[Node]] = {}
    for node in schedule.nodes:
        of_line.setdefault(node.line, []).append(node)
    last = max([1, *(node.time + node.latency + node.waits for node in schedule.nodes)])
    most = max([1, *(sum(node.fifo_bits for node in nodes) for nodes in of_line.values())])
    rows = []
    for number, text in enumerate(source, 1):
        nodes = of_line.get(number, [])
        bits = sum(node.fifo_bits for node in nodes)
        heat = (
            f'<span class="heat" style="background: rgba(224,138,30,{bits / most:.2f})">{bits} bits</span>'
            if bits
            else ""
        )
        title = escaped(", ".join(f"{node.number} {node.label}" for node in nodes[:40]))
        cells = f'<td class="line">{number}</td><td class="code">{escaped(text) or " "}</td>'
        cells += f'<td class="time" title="{title}">{track(nodes, last)}</td><td class="number">{heat}</td>'
        rows.append(f'<tr id="{kernel.name}:{number}">{cells}</tr>')
    head = (
        "<thead><tr><th></th><th></th><th>ticks 0 to " + str(last) + '</th><th class="number">FIFOs</th></tr></thead>'
    )
    return f"<table>{head}<tbody>{''.join(rows)}</tbody></table>"


def track(nodes: list[Node], last: int) -> str:
    """The bars of the nodes of a line."""
    bars = {}
    for node in nodes:
        if not node.is_timed:
            continue
        end = node.time + node.latency
        bars[f'<i style="left:{100 * node.time / last:.2f}%;width:{100 * node.latency / last:.2f}%"></i>'] = None
        if node.waits:
            bars[
                f'<i class="wait" style="left:{100 * end / last:.2f}%;width:{100 * node.waits / last:.2f}%"></i>'
            ] = None
    return f'<div class="track">{"".join(bars)}</div>' if bars else ""


def node_table(schedule: Schedule) -> str:
    """The nodes of a kernel; a click on one marks its line."""
    names = ("node", "what", "line", "bits", "begins", "latency", "waits", "FIFO bits")
    head = "".join(f'<th data-sort="" class="{"" if name == "what" else "number"}">{name}</th>' for name in names)
    rows = []
    for node in schedule.nodes:
        values = [
            node.number,
            node.label,
            node.line,
            node.width,
            node.time if node.is_timed else "",
            node.latency,
            node.waits,
            node.fifo_bits,
        ]
        cells = "".join(
            f'<td class="{"" if at == 1 else "number"}">{escaped(value)}</td>' for at, value in enumerate(values)
        )
        rows.append(f'<tr class="node" id="{schedule.name}.{node.number}" data-line="{node.line}">{cells}</tr>')
    table = f"<table><thead><tr>{head}</tr></thead><tbody>{''.join(rows)}</tbody></table>"
    return f'<h2>Nodes of {schedule.name}</h2>\n<div class="scroll">{table}</div>'


# links


def links(project: Project) -> str:
    """The links between kernels."""
    found = project.links
    if not found:
        return ""
    names = [kernel.name for kernel in project.design.kernels]
    last = max(1, *(link.read for link in found))
    rows = []
    for link in found:
        ends = link.link
        left, wide = 100 * link.written / last, 100 * (link.read - link.written) / last
        bar = f'<div class="track"><i class="wait" style="left:{left:.2f}%;width:{wide:.2f}%"></i></div>'
        port = project.design.kernels[ends.writer].outputs[ends.output]
        cells = [
            ends.number,
            f"{names[ends.writer]}.{ends.output}",
            f"{names[ends.reader]}.{ends.input}",
            port.type,
            link.depth,
        ]
        rows.append(
            "<tr>" + "".join(f"<td>{escaped(cell)}</td>" for cell in cells) + f'<td class="time">{bar}</td></tr>'
        )
    names = ("link", "from", "to", "type", "depth", f"first word waits, edges 0 to {last}")
    head = "<tr>" + "".join(f"<th>{name}</th>" for name in names) + "</tr>"
    return f"<h2>Links</h2>\n<table><thead>{head}</thead><tbody>{''.join(rows)}</tbody></table>"


# words


def words(project: Project, run: RunShown) -> str:
    """The words of a run: lines or pictures, and a table of the first ones."""
    parts = ["<h2>A run</h2>"]
    found, wanted = run.comparison.simulated, run.comparison.expected
    streams = [("input", name, values, project.inputs[name].type) for name, values in run.inputs.items()]
    streams += [("output", name, wanted[name], project.outputs[name].type) for name in wanted]
    shown = []
    for kind, name, values, of in streams:
        shape = next((shape for shape in run.shapes if len(shape) == 2 and int(np.prod(shape)) == len(values)), None)
        drawn = picture(values, shape, of) if shape else line(values)
        shown.append(f"<p>{kind} {escaped(name)}, {escaped(of)}, {len(values)} words</p>{drawn}")
    parts += shown
    parts.append(
        '<nav><button data-words="value" class="on">values</button><button data-words="hex">words</button></nav>'
    )
    columns = [
        (f"in {name}", project.inputs[name].type.encode(values), values, None, None)
        for name, values in run.inputs.items()
    ]
    columns += [
        (f"out {name}", found.words[name], found[name], wanted.words[name], wanted.undefined[name]) for name in found
    ]
    parts.append(
        word_table(
            columns,
            {
                **{f"in {n}": p.type for n, p in project.inputs.items()},
                **{f"out {n}": p.type for n, p in project.outputs.items()},
            },
        )
    )
    return "\n".join(parts)


def word_table(columns: list[tuple], types: dict[str, WordType]) -> str:
    """The first words of each stream: those that left, undefined ones in grey, and others than are expected in red."""
    count = max((len(column[1]) for column in columns), default=0)
    rows = []
    for number in range(min(count, MOST_WORDS)):
        cells = [f'<td class="number">{number}</td>']
        for name, encoded, values, wanted, unknown in columns:
            if number >= len(encoded):
                cells.append("<td></td>")
                continue
            kind = "number mono"
            if wanted is not None and number < len(wanted) and unknown[number]:
                kind += " undefined"
            elif wanted is not None and (number >= len(wanted) or wanted[number] != encoded[number]):
                kind += " wrong"
            word, value = f"{int(encoded[number]):0{types[name].digits}x}", shown_value(values[number])
            cells.append(f'<td class="{kind}" data-hex="{word}" data-value="{value}">{value}</td>')
        rows.append(f"<tr>{''.join(cells)}</tr>")
    head = '<th class="number">word</th>' + "".join(
        f'<th class="number">{escaped(column[0])}</th>' for column in columns
    )
    more = f'<p class="legend">The first {MOST_WORDS} of {count} words.</p>' if count > MOST_WORDS else ""
    return (
        f'<div class="scroll"><table><thead><tr>{head}</tr></thead><tbody>{"".join(rows)}</tbody></table></div>{more}'
    )


def shown_value(value: Any) -> str:
    """A value as it is shown."""
    if isinstance(value, (bool, np.bool_)):
        return str(int(value))
    return f"{float(value):.8g}" if isinstance(value, (float, np.floating)) else escaped(value)


def line(values: Any) -> str:
    """A line of values; undefined ones leave gaps."""
    plain, unknown = np.ma.getdata(values), np.ma.getmaskarray(values)
    known = np.flatnonzero(~unknown)
    if not len(known):
        return ""
    known = known[:: max(1, len(known) // MOST_POINTS)]
    heights = np.array([float(plain[place]) for place in known])
    low, high = heights.min(), heights.max()
    xs = 1000 * known / max(1, len(plain) - 1)
    ys = 85 - 80 * (heights - low) / ((high - low) or 1)
    points = " ".join(f"{x:.1f},{y:.1f}" for x, y in zip(xs, ys))
    told = f'<p class="legend">{low:g} to {high:g}</p>'
    style = 'fill="none" stroke="#2f6db3" stroke-width="1.2" vector-effect="non-scaling-stroke"'
    head = '<svg class="line" viewBox="0 0 1000 90" preserveAspectRatio="none">'
    return f'{head}<polyline points="{points}" {style}/></svg>{told}'


def picture(values: Any, shape: tuple[int, ...], of: WordType) -> str:
    """A picture in the page; without Pillow a line."""
    try:
        from PIL import Image
    except ModuleNotFoundError:
        return line(values)
    plain = np.ma.getdata(values).reshape(shape)
    if of.kind == "uint" and of.width in (24, 32):
        points = plain.astype(np.uint32)
        image = Image.fromarray(np.dstack([(points >> shift & 255).astype(np.uint8) for shift in (16, 8, 0)]), "RGB")
    else:
        heights = plain.astype(float)
        low, high = (
            (0.0, 255.0) if of.width <= 8 and not of.signed and of.kind == "uint" else (heights.min(), heights.max())
        )
        image = Image.fromarray(np.clip(255 * (heights - low) / ((high - low) or 1), 0, 255).astype(np.uint8), "L")
    kept = io.BytesIO()
    image.save(kept, "PNG")
    data = base64.b64encode(kept.getvalue()).decode()
    return f'<div class="pictures"><img alt="" src="data:image/png;base64,{data}"></div>'
