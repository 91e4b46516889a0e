"""The words of all streams of a project, by the equations of its kernels and the joins of its manager (docs/LANGUAGE.md).

A source without a manager is a project of its one kernel, whose ports are streams of the CPU of the same names.
"""
from stream_equations import Streams, nodes_of

CPU = "CPU"


class ProjectStreams:
    """What is given to a run is ticks and words of scalars, by the names of kernels, and the words of each stream from the CPU;
    `built` is what a source builds (bench/building_run.py)."""

    def __init__(self, built, ticks, words, scalars=None):
        self.built, self.words = built, words
        self.names = [name for name, _ in built.kernels]
        self.nodes = [nodes_of(calls) for _, calls in built.kernels]
        self.joins = built.manager.joins if built.manager else list(self.own_joins())
        self.kernels = [None] * len(self.names)
        for number in self.order():
            name = self.names[number]
            self.kernels[number] = Streams(self.nodes[number], ticks[name], self.sources(number), (scalars or {}).get(name))

    def own_joins(self):
        """The joins of a kernel that stands alone."""
        for node in self.nodes[0]:
            if node.kind == "input":
                yield (0, node.name), (CPU, node.name)
            elif node.kind == "output":
                yield (CPU, node.name), (0, node.name)

    def links(self):
        """(input, output) of each link between kernels, in the order of the joins."""
        return [(left, right) for left, right in self.joins if CPU not in (left[0], right[0])]

    def order(self):
        """The numbers of the kernels, each after those that it is linked from."""
        left, order = set(range(len(self.names))), []
        while left:
            ready = sorted(left - {to[0] for to, from_ in self.links() if from_[0] in left})
            order += ready
            left -= set(ready)
        return order

    def sources(self, number):
        """The words that come to each input of a kernel."""
        found = {}
        for left, (of, name) in self.joins:
            if left[0] == number:
                found[left[1]] = self.words[name] if of == CPU else self.kernels[of].output(name)
        return found

    def outputs(self):
        """The words of each stream to the CPU, None where one is undefined."""
        return {left[1]: self.kernels[of].output(name) for left, (of, name) in self.joins if left[0] == CPU}

    def is_guarded(self):
        return all(streams.unguarded() is None for streams in self.kernels)
