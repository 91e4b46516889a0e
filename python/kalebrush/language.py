"""What a source builds: its ports with their types, and the nodes of its kernels with their lines.

The constructors are evaluated by bench/building_run.py, which was written from docs/LANGUAGE.md. The program has
accepted a source before it is read here.
"""
from __future__ import annotations

import importlib
import sys
from dataclasses import dataclass, field
from types import ModuleType
from typing import Any

from kalebrush.errors import KalebrushError
from kalebrush.program import TOP
from kalebrush.types import WordType

CPU = "CPU"


def bench(name: str) -> ModuleType:
    """A module of the repository's folder bench/."""
    folder = str(TOP / "bench")
    if folder not in sys.path:
        sys.path.append(folder)
    try:
        return importlib.import_module(name)
    except ModuleNotFoundError as error:
        raise KalebrushError(
            f"the folder bench/ of the repository isn't beside this package ({error.name} is missing)"
        ) from error


@dataclass(frozen=True)
class Port:
    """A port of the design, or of a kernel: a stream with the type of its words."""

    name: str
    type: WordType
    is_controlled: bool


@dataclass
class Kernel:
    """A kernel: the calls that make its nodes, and the source line of each node."""

    name: str
    calls: list[tuple]
    lines: list[int]
    inputs: dict[str, Port] = field(default_factory=dict)
    outputs: dict[str, Port] = field(default_factory=dict)
    scalars: dict[str, WordType] = field(default_factory=dict)

    @property
    def nodes(self) -> list[tuple]:
        """The calls that make a node, in the order of the nodes."""
        return [call for call in self.calls if call[0] != "connect"]


@dataclass(frozen=True)
class Link:
    """A link between two kernels, by their numbers and ports, in the order of the manager's joins."""

    number: int
    writer: int
    output: str
    reader: int
    input: str


@dataclass
class Design:
    """The project that a source builds.

    `joins` are pairs of ends, (kernel's number or CPU, name), the reading end first.
    """

    kernels: list[Kernel]
    joins: list[tuple]
    inputs: dict[str, Port]
    outputs: dict[str, Port]

    @property
    def scalars(self) -> dict[str, WordType]:
        """The scalars of all kernels, by `KERNEL.NAME`."""
        return {f"{kernel.name}.{name}": of for kernel in self.kernels for name, of in kernel.scalars.items()}

    @property
    def links(self) -> list[Link]:
        """The links between kernels."""
        ends = [(left, right) for left, right in self.joins if CPU not in (left[0], right[0])]
        return [Link(number, right[0], right[1], left[0], left[1]) for number, (left, right) in enumerate(ends)]


def read(source: str) -> Design:
    """The design of a source that the program accepts."""
    classes = bench("source_tree").classes_of(source)
    kernel_classes = {class_.name: class_ for class_ in classes if not class_.manager}
    manager = next((class_ for class_ in classes if class_.manager), None)
    run_class = _placing_run()
    joins: list[tuple] = []
    if manager:
        built = run_class(manager, kernel_classes)
        built.run([])
        wanted, joins = built.kernels, built.joins
    else:
        (class_,) = kernel_classes.values()
        wanted = [(class_.name, class_, [])]
    kernels = [_kernel(name, class_, arguments, run_class, source) for name, class_, arguments in wanted]
    joins = joins or list(_own_joins(kernels[0]))
    return Design(kernels, joins, *_host_ports(kernels, joins))


def _placing_run() -> type:
    """A run of a constructor that keeps the place of the expression by which each node is made."""
    base = bench("building_run").Run

    class PlacingRun(base):
        def __init__(self, *arguments: Any) -> None:
            super().__init__(*arguments)
            self.places: list[int] = []
            self.open_places = [0]

        def evaluate(self, node: Any) -> Any:
            self.open_places.append(node.place)
            try:
                return super().evaluate(node)
            finally:
                self.open_places.pop()

        def make(self, call: tuple, of: Any, is_feed: bool = False) -> Any:
            self.places.append(self.open_places[-1])
            return super().make(call, of, is_feed)

    return PlacingRun


def _kernel(name: str, class_: Any, arguments: list, run_class: type, source: str) -> Kernel:
    run = run_class(class_)
    run.run(arguments)
    kernel = Kernel(name, run.calls, [source.count("\n", 0, place) + 1 for place in run.places])
    for call in kernel.nodes:
        if call[0] == "input":
            kernel.inputs[call[1]] = Port(call[1], word_type(call[2]), call[3] is not None)
        elif call[0] == "output":
            kernel.outputs[call[1]] = Port(call[1], word_type(call[4]), call[3] is not None)
        elif call[0] == "scalar":
            kernel.scalars[call[1]] = word_type(call[2])
    return kernel


def word_type(of: Any) -> WordType:
    """A type of the evaluator as one of this package."""
    return WordType(of.kind, of.whole, of.frac, of.signed)


def _own_joins(kernel: Kernel) -> Any:
    """The joins of a kernel that stands alone."""
    for name in kernel.inputs:
        yield (0, name), (CPU, name)
    for name in kernel.outputs:
        yield (CPU, name), (0, name)


def _host_ports(kernels: list[Kernel], joins: list[tuple]) -> tuple[dict[str, Port], dict[str, Port]]:
    """The streams from the CPU and to it, with the types of the ports that they are joined to."""
    inputs, outputs = {}, {}
    for left, right in joins:
        if right[0] == CPU:
            port = kernels[left[0]].inputs[left[1]]
            inputs[right[1]] = Port(right[1], port.type, port.is_controlled)
        elif left[0] == CPU:
            port = kernels[right[0]].outputs[right[1]]
            outputs[left[1]] = Port(left[1], port.type, port.is_controlled)
    return inputs, outputs


def label_of(call: tuple) -> str:
    """What a node is, in a few words."""
    kind, *values = call
    if kind in ("input", "output", "scalar"):
        return f"{kind} {values[0]}"
    if kind == "constant":
        return f"constant {values[0]}"
    if kind == "offset":
        return f"offset {values[1]:+d}"
    if kind == "operation":
        return f"{values[0]} {values[2]}" if values[0] in ("shl", "shr") else values[0]
    return kind
