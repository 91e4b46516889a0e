"""The first words that differ between what left and what is expected."""
from __future__ import annotations

from typing import TYPE_CHECKING, Any

import numpy as np

from kalebrush.language import CPU, bench

if TYPE_CHECKING:
    from kalebrush.project import Comparison, Expected, Project, Streams

MOST_COUNTED = 200_000  # node words: the ticks of an output with a control are found in no larger run


def compare_streams(project: Project, simulated: Streams, expected: Expected, run: tuple) -> Comparison:
    """The comparison of the words of two sets of streams in a run of inputs, ticks and scalars."""
    from kalebrush.project import Comparison

    found = Comparison(simulated, expected)
    for name in project.outputs:
        left, wanted, unknown = simulated.words[name], expected.words[name], expected.undefined[name]
        shared = min(len(left), len(wanted))
        differs = (left[:shared] != wanted[:shared]) & ~unknown[:shared]
        found.agreeing += int(np.sum(~differs & ~unknown[:shared]))
        found.undefined += int(np.sum(unknown[:shared]))
        if np.any(differs) or len(left) != len(wanted):
            number = int(np.argmax(differs)) if np.any(differs) else shared
            found.differences.append(_difference(project, name, number, left, wanted, unknown, run))
    return found


def _difference(project: Project, name: str, number: int, left: Any, wanted: Any, unknown: Any, run: tuple) -> Any:
    from kalebrush.project import Difference

    ours = int(left[number]) if number < len(left) else None
    theirs = int(wanted[number]) if number < len(wanted) and not unknown[number] else None
    return Difference(name, number, tick_of(project, name, number, run), ours, theirs)


def tick_of(project: Project, name: str, number: int, run: tuple) -> int | None:
    """The tick of the kernel in which the word of this number leaves an output, or None where it isn't found."""
    if not project.outputs[name].is_controlled:
        return number
    inputs, ticks, scalars = run
    design = project.design
    if sum(len(kernel.nodes) * ticks[kernel.name] for kernel in design.kernels) > MOST_COUNTED:
        return None
    end = next(right for left, right in design.joins if left == (CPU, name))
    streams = _streams(project, inputs, ticks, scalars).kernels[end[0]]
    node = next(k for k, node in enumerate(streams.nodes) if node.kind == "output" and node.name == end[1])
    enabled = [tick for tick in range(streams.ticks) if streams.word(streams.nodes[node].control, tick) == 1]
    return enabled[number] if number < len(enabled) else None


def _streams(project: Project, inputs: Any, ticks: dict[str, int], scalars: Any) -> Any:
    """The words of all nodes, by the equations as bench/project_streams.py works them out."""
    built = bench("building_run").build(project.source.read_text(encoding="utf-8"))
    given = {name: [int(word) for word in words] for name, words in project.encoded(inputs).items()}
    of_kernels: dict[str, dict[str, int]] = {}
    for key, word in project.encoded_scalars(scalars).items():
        kernel, scalar = key.split(".")
        of_kernels.setdefault(kernel, {})[scalar] = int(word, 16)
    return bench("project_streams").ProjectStreams(built, ticks, given, of_kernels)
