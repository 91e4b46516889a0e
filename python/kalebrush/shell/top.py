"""The ports of a compiled text, and which kernel each stream belongs to."""
from __future__ import annotations

import re
from dataclasses import dataclass, field

from kalebrush.errors import ValueRefused

NAME = r"[A-Za-z_][A-Za-z0-9_$]*"
COMMENT = re.compile(r"//[^\n]*|/\*.*?\*/", re.S)
MODULE = re.compile(rf"\bmodule\s+({NAME})\s*\((.*?)\)\s*;(.*?)\bendmodule\b", re.S)
PORT = re.compile(rf"\b(input|output)\s+wire\s*\[\s*(\d+)\s*:\s*0\s*\]\s*({NAME})")
INSTANCE = re.compile(rf"({NAME})\s+({NAME})\s*\(((?:\s*\.{NAME}\s*\(\s*{NAME}\s*\)\s*,?)*)\)\s*;")
JOINED = re.compile(rf"\.({NAME})\s*\(\s*({NAME})\s*\)")
TICK_BITS = 48


@dataclass(frozen=True)
class Stream:
    """A stream of the design, as wide as its words, and the kernel that reads or writes it."""

    name: str
    width: int
    kernel: str

    @property
    def bytes(self) -> int:
        """The bytes of a word on a bus."""
        return (self.width + 7) // 8


@dataclass(frozen=True)
class Scalar:
    """A scalar of a kernel."""

    kernel: str
    name: str
    width: int

    @property
    def port(self) -> str:
        """The port of the top module."""
        return f"scalar${self.kernel}${self.name}"


@dataclass
class Top:
    """The top module of a text."""

    module: str
    kernels: list[str] = field(default_factory=list)
    scalars: list[Scalar] = field(default_factory=list)
    inputs: list[Stream] = field(default_factory=list)
    outputs: list[Stream] = field(default_factory=list)


def read_top(text: str) -> Top:
    """The top module of a text that `compile` wrote."""
    modules = MODULE.findall(COMMENT.sub(" ", text))
    if not modules:
        raise ValueRefused("the text has no module")
    module, ports, items = modules[-1]
    top, found = Top(module), [(name, int(high) + 1) for _, high, name in PORT.findall(ports)]
    owners = owners_of(items)
    for name, width in found:
        kind, *rest = name.split("$")
        if kind == "hold":
            top.kernels.append(rest[0])
        elif kind == "scalar":
            top.scalars.append(Scalar(rest[0], rest[1], width))
    for name, width in found:
        kind, *rest = name.split("$")
        if kind in ("in", "out") and rest[1] == "data":
            kernel = owners.get((kind, rest[0]), top.kernels[0] if len(top.kernels) == 1 else "")
            if not kernel:
                raise ValueRefused(f"no kernel of the text has the stream {rest[0]}")
            (top.inputs if kind == "in" else top.outputs).append(Stream(rest[0], width, kernel))
    if not top.kernels or "done" not in dict(found):
        raise ValueRefused(f"the module {module} hasn't the ports of a compiled text")
    return top


def owners_of(items: str) -> dict[tuple[str, str], str]:
    """The kernel of each stream, by (`in` or `out`, name): its FIFO and the kernel's instance share a net."""
    instances = {name: dict(JOINED.findall(joined)) for _, name, joined in INSTANCE.findall(items)}
    nets = {}
    for name, joined in instances.items():
        if name.startswith("kernel$"):
            nets.update({net: name[len("kernel$") :] for port, net in joined.items() if port.endswith("$data")})
    found = {}
    for name, joined in instances.items():
        for way, side in (("in", "out$data"), ("out", "in$data")):
            begin = f"fifo${way}$"
            if name.startswith(begin) and joined.get(side) in nets:
                found[way, name[len(begin) :]] = nets[joined[side]]
    return found
