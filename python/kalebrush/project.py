"""A source with a latency table: compiled, checked, expected and simulated."""
from __future__ import annotations

import json
import pathlib
import shutil
import tempfile
import weakref
from collections.abc import Callable, Iterator, Mapping
from contextlib import closing
from dataclasses import dataclass, field
from functools import cached_property
from typing import Any

import numpy as np

from kalebrush import language, program, words
from kalebrush.errors import ValueRefused
from kalebrush.language import Design, Port
from kalebrush.progress import Bar
from kalebrush.schedule import LinkDepth, Schedule, depths_of, last_edge, schedules_of

OPERATIONS = "add sub mul div neg and or xor not eq ne lt le gt ge mux round".split()
MOST_EDGES = 2**40
SPARE_EDGES = 1000

Ticks = int | Mapping[str, int] | None
Values = Mapping[str, Any]


def zero_table() -> dict[str, Any]:
    """The table by which no operation takes a tick: every loop that looks back has a schedule by it."""
    return {name: [[1, 0]] for name in OPERATIONS}


@dataclass
class Compiled:
    """What `compile` says: the bits of each kernel's FIFOs and the depth of each link, and what it writes."""

    fifo_bits: dict[str, int]
    depths: list[int]
    text: str
    report: str


class Streams(Mapping):
    """The values of each output, by its name; `words` has the words of each."""

    def __init__(
        self, ports: Mapping[str, Port], found: Mapping[str, tuple[np.ndarray, np.ndarray]], has_masks: bool
    ) -> None:
        self.ports, self.words = dict(ports), {name: pair[0] for name, pair in found.items()}
        self.undefined = {name: pair[1] for name, pair in found.items()}
        self._values = {
            name: ports[name].type.decode(pair[0], pair[1] if has_masks else None) for name, pair in found.items()
        }

    def __getitem__(self, name: str) -> np.ndarray:
        return self._values[name]

    def __iter__(self) -> Iterator[str]:
        return iter(self._values)

    def __len__(self) -> int:
        return len(self._values)


class Expected(Streams):
    """The words that the stream equations say of a run. Undefined ones are masked.

    `guarded` and `balanced` say whether the run is, and `lines` are those that the program said.
    """

    def __init__(self, ports: Mapping[str, Port], found: Mapping, lines: list[str]) -> None:
        super().__init__(ports, found, True)
        self.lines = lines
        self.guarded = "guarded" in lines
        self.balanced = "balanced" in lines


class Simulated(Streams):
    """The words that left in a simulation: `done` says whether it ended by itself, and `edges` after how many edges."""

    def __init__(self, ports: Mapping[str, Port], found: Mapping, line: str) -> None:
        super().__init__(ports, found, False)
        self.line, self.done, self.edges = line, line.startswith("done"), int(line.split()[-2])


@dataclass(frozen=True)
class Difference:
    """The first word of an output that differs: its number, its tick where that is known, and both words.

    `left` is None where no such word left, and `wanted` where more words left than there are.
    """

    output: str
    number: int
    tick: int | None
    left: int | None
    wanted: int | None

    def __str__(self) -> str:
        shown = [f"{word:x}" if word is not None else "none" for word in (self.left, self.wanted)]
        tick = f" of tick {self.tick}" if self.tick is not None else ""
        return f"output {self.output} differs at word {self.number}{tick}: {shown[0]} left, {shown[1]} is expected"


@dataclass
class Comparison:
    """A simulation beside what is expected: the first difference of each output.

    `agreeing` and `undefined` count words.
    """

    simulated: Simulated
    expected: Expected
    differences: list[Difference] = field(default_factory=list)
    agreeing: int = 0
    undefined: int = 0

    @property
    def agrees(self) -> bool:
        """Whether all words are those that are expected, and none is missing."""
        return not self.differences


class Project:
    """A source and a latency table.

    `source` is the path of a file. `table` is the path of one, or the table itself as a dictionary, or None for the
    table by which no operation takes a tick. `progress` says whether long runs show a bar; None: on a terminal.
    """

    def __init__(self, source: str | pathlib.Path, table: Any = None, progress: bool | None = None) -> None:
        self.source = pathlib.Path(source).resolve()
        self.progress = progress
        self.folder = pathlib.Path(tempfile.mkdtemp(prefix="kalebrush-"))
        weakref.finalize(self, shutil.rmtree, self.folder, ignore_errors=True)
        self._table = table

    @classmethod
    def from_text(cls, text: str, table: Any = None, **more: Any) -> Project:
        """The project of the text of a source."""
        project = cls("source.maxj", table, **more)
        project.source = project.folder / "source.maxj"
        project.source.write_text(text, encoding="utf-8")
        return project

    # compiling

    @cached_property
    def table_path(self) -> pathlib.Path:
        """The file of the latency table."""
        if isinstance(self._table, (str, pathlib.Path)):
            return pathlib.Path(self._table).resolve()
        path = self.folder / "table.json"
        path.write_text(json.dumps(self._table if self._table is not None else zero_table()))
        return path

    @cached_property
    def compiled(self) -> Compiled:
        """What `compile` says and writes, by the first call."""
        return self.compile()

    def compile(self, out: str | pathlib.Path | None = None, report: str | pathlib.Path | None = None) -> Compiled:
        """Compiles the source; a refusal is raised as `Refusal`. Files that are named get the text and the report."""
        files = [self.folder / "design.v", self.folder / "design.report"]
        lines, _ = program.run(["compile", self.source, self.table_path, *files], self.folder)
        bits, depths = {}, []
        for line in map(str.split, lines):
            if line[0] == "kernel":
                bits[line[1]] = int(line[3])
            elif line[0] == "link":
                depths.append(int(line[3]))
        texts = [path.read_text(encoding="utf-8") for path in files]
        for path, text in zip((out, report), texts):
            if path:
                pathlib.Path(path).write_text(text, encoding="utf-8")
        return Compiled(bits, depths, *texts)

    @property
    def text_path(self) -> pathlib.Path:
        """The file of the compiled text."""
        _ = self.compiled
        return self.folder / "design.v"

    def check(self, report: str | pathlib.Path | None = None) -> dict[str, int]:
        """Checks a report, or that of `compile`: the bits of each kernel, than which no schedule needs fewer."""
        path = pathlib.Path(report).resolve() if report else self.folder / "design.report"
        if not report:
            path.write_text(self.compiled.report)
        lines, _ = program.run(["check", self.source, self.table_path, path], self.folder)
        return {line.split()[1]: int(line.split()[3]) for line in lines}

    @cached_property
    def design(self) -> Design:
        """The ports with their types, and the kernels with their nodes."""
        _ = self.compiled
        return language.read(self.source.read_text(encoding="utf-8"))

    @property
    def inputs(self) -> dict[str, Port]:
        """The streams that come in."""
        return self.design.inputs

    @property
    def outputs(self) -> dict[str, Port]:
        """The streams that leave."""
        return self.design.outputs

    @cached_property
    def schedules(self) -> list[Schedule]:
        """The schedule of each kernel."""
        return schedules_of(self.design, json.loads(self.table_path.read_text()), self.compiled.report)

    @property
    def links(self) -> list[LinkDepth]:
        """The links between kernels, with their depths."""
        return depths_of(self.design, self.schedules)

    # runs

    def ticks_of(self, inputs: Values, ticks: Ticks = None) -> dict[str, int]:
        """The ticks of each kernel: those given, or else as many as each input without a control has words."""
        names = [kernel.name for kernel in self.design.kernels]
        if isinstance(ticks, Mapping):
            if set(ticks) != set(names):
                raise ValueRefused(f"ticks are of the kernels {', '.join(names)}")
            return {name: int(ticks[name]) for name in names}
        if ticks is None:
            counts = {
                np.size(inputs[name]) for name, port in self.inputs.items() if not port.is_controlled and name in inputs
            }
            if len(counts) != 1:
                raise ValueRefused(f"the number of ticks must be given: inputs have {sorted(counts) or 'no'} words")
            (ticks,) = counts
        return dict.fromkeys(names, int(ticks))

    def expect(self, inputs: Values, ticks: Ticks = None, scalars: Values | None = None) -> Expected:
        """The words that the source says of a run, worked out without hardware. Undefined ones are masked."""
        bar = Bar("expect", self.progress)
        words_of_command = ["expect", self.source, self.table_path, "design.report", "run.json"]
        with self._run(inputs, ticks, scalars) as run, closing(bar):
            (run.folder / "design.report").write_text(self.compiled.report)
            lines, _ = program.run(words_of_command, run.folder, lambda: bar.update(None))
            return Expected(self.outputs, run.read(self.outputs), lines)

    def simulate(
        self,
        inputs: Values,
        ticks: Ticks = None,
        scalars: Values | None = None,
        *,
        stalls: int = 0,
        fill: int = 0,
        edges: int | None = None,
        text: str | pathlib.Path | None = None,
    ) -> Simulated:
        """The words that leave the compiled text, or another text with its ports, in a simulation.

        `stalls` is the number of a pattern of stalls, 0 for none; `fill` the word that registers and memories hold at
        first; `edges` the most clock edges, by default enough for every balanced run.
        """
        bar = Bar("simulate", self.progress)
        design = pathlib.Path(text).resolve() if text else self.text_path
        with self._run(inputs, ticks, scalars) as run, closing(bar):
            most = edges or self._most_edges(run.ticks, stalls)
            run.spec |= {"pattern": stalls, "fill": f"{fill:x}", "edges": most}
            run.write()
            lines, _ = program.run(["simulate", design, "run.json"], run.folder, run.watch(bar, self.outputs))
            return Simulated(self.outputs, run.read(self.outputs), lines[-1])

    def compare(self, inputs: Values, ticks: Ticks = None, scalars: Values | None = None, **more: Any) -> Comparison:
        """Simulates and expects one run: the first word of each output that differs. `more` is that of `simulate`."""
        simulated = self.simulate(inputs, ticks, scalars, **more)
        return self.compared(simulated, self.expect(inputs, ticks, scalars), inputs, ticks, scalars)

    def compared(
        self, simulated: Streams, expected: Expected, inputs: Values, ticks: Ticks = None, scalars: Values | None = None
    ) -> Comparison:
        """Words that left, of a simulation or of a board, beside those that are expected."""
        from kalebrush.comparing import compare_streams

        return compare_streams(self, simulated, expected, (inputs, self.ticks_of(inputs, ticks), scalars or {}))

    def _most_edges(self, ticks: dict[str, int], stalls: int) -> int:
        """Enough edges for a balanced run; with stalls each port waits in a quarter of all edges."""
        edges = last_edge(self.design, self.schedules, ticks) + SPARE_EDGES
        if stalls:
            ports = len(self.inputs) + len(self.outputs) + len(self.design.kernels)
            edges = int(edges * 2 / 0.75**ports)
        return min(edges, MOST_EDGES)

    def encoded(self, inputs: Values) -> dict[str, np.ndarray]:
        """The words of the values of each input."""
        if set(inputs) != set(self.inputs):
            raise ValueRefused(
                f"the inputs are {', '.join(self.inputs) or 'none'}, and not {', '.join(inputs) or 'none'}"
            )
        found = {}
        for name, values in inputs.items():
            try:
                found[name] = self.inputs[name].type.encode(values)
            except ValueRefused as error:
                raise ValueRefused(f"input {name}: {error}") from None
        return found

    def encoded_scalars(self, scalars: Values | None) -> dict[str, str]:
        """The word of each scalar as a run file has it; `KERNEL.NAME`, or the name alone where one kernel has it."""
        wanted, found = self.design.scalars, {}
        for key, value in (scalars or {}).items():
            full = [name for name in wanted if key in (name, name.split(".")[1])]
            if len(full) != 1:
                raise ValueRefused(f"there is no one scalar {key}: they are {', '.join(wanted) or 'none'}")
            word = wanted[full[0]].encode(np.array([value], object if isinstance(value, int) else None))[0]
            found[full[0]] = f"{int(word):x}"
        if set(found) != set(wanted):
            raise ValueRefused(f"the scalars are {', '.join(wanted) or 'none'}, and not {', '.join(found) or 'none'}")
        return found

    def _run(self, inputs: Values, ticks: Ticks, scalars: Values | None) -> Run:
        """A folder with the run file and the words of the inputs."""
        return Run(self, self.encoded(inputs), self.ticks_of(inputs, ticks), self.encoded_scalars(scalars))


class Run:
    """A folder of its own with the files of a run."""

    def __init__(
        self, project: Project, encoded: dict[str, np.ndarray], ticks: dict[str, int], scalars: dict[str, str]
    ) -> None:
        self.folder, self.ticks = pathlib.Path(tempfile.mkdtemp(prefix="run-", dir=project.folder)), ticks
        self.spec: dict[str, Any] = {
            "ticks": ticks,
            "inputs": {name: f"in.{name}.txt" for name in encoded},
            "outputs": {name: f"out.{name}.txt" for name in project.outputs},
            "edges": MOST_EDGES,
        }
        if scalars:
            self.spec["scalars"] = scalars
        for name, found in encoded.items():
            words.write_words(self.folder / f"in.{name}.txt", found, project.inputs[name].type.width)
        self.write()

    def __enter__(self) -> Run:
        return self

    def __exit__(self, *_: object) -> None:
        shutil.rmtree(self.folder, ignore_errors=True)

    def write(self) -> None:
        """Writes the run file."""
        (self.folder / "run.json").write_text(json.dumps(self.spec))

    def read(self, ports: Mapping[str, Port]) -> dict[str, tuple[np.ndarray, np.ndarray]]:
        """The words that left by each output, and which are undefined."""
        return {
            name: words.read_words(self.folder / f"out.{name}.txt", port.type.width) for name, port in ports.items()
        }

    def watch(self, bar: Bar, ports: Mapping[str, Port]) -> Callable[[], None]:
        """Shows how much of the outputs is written."""
        free = [port for port in ports.values() if not port.is_controlled]
        most = sum((port.type.digits + 1) * max(self.ticks.values()) for port in free)
        shown = free or list(ports.values())

        def look() -> None:
            files = [self.folder / f"out.{port.name}.txt" for port in shown]
            size = sum(path.stat().st_size for path in files if path.exists())
            bar.update(size / most if most else None)

        return look
