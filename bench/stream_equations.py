"""The words of a kernel's streams, tick by tick, as docs/LANGUAGE.md says them: no hardware, no schedule.

This is written from that page, and not from the program: bench/check_equations.py compares it with worked kernels.
"""
from dataclasses import dataclass, field

from stream_rules import rounded, uint


@dataclass
class Node:
    """A node of a kernel, with the nodes that it is made of. `of` is the type of its words."""

    kind: str
    of: object
    operands: list = field(default_factory=list)
    name: str = ""
    control: int = None
    detail: tuple = ()


def nodes_of(calls):
    """The nodes that the calls of a constructor's run make, in their order (bench/building_run.py)."""
    nodes = []
    for call in calls:
        kind, *values = call
        if kind == "input":
            name, of, control = values
            nodes.append(Node(kind, of, [], name, control))
        elif kind == "output":
            name, value, control, of = values
            nodes.append(Node(kind, of, [value], name, control))
        elif kind == "scalar":
            name, of = values
            nodes.append(Node(kind, of, [], name))
        elif kind == "constant":
            bits, of = values
            nodes.append(Node(kind, of, detail=(bits,)))
        elif kind == "operation":
            op, mode, amount, args, of = values
            nodes.append(Node(kind, of, list(args), detail=(op, mode, amount)))
        elif kind == "offset":
            value, ticks, of = values
            nodes.append(Node(kind, of, [value], detail=(ticks,)))
        elif kind == "feed":
            nodes.append(Node(kind, values[0]))
        elif kind == "connect":
            feed, value = values
            nodes[feed].operands.append(value)
        elif kind == "hold":
            value, store, of = values
            nodes.append(Node(kind, of, [value], control=store))
        elif kind == "counter":
            last, inc, bits = values
            nodes.append(Node(kind, uint(bits), detail=((last, inc, bits),)))
        elif kind == "chain":
            nodes.append(Node(kind, None))
        elif kind == "chain counter":
            chain, *digit = values
            nodes.append(Node(kind, uint(digit[-1]), [chain], detail=(len(nodes[chain].detail),)))
            nodes[chain].detail += (tuple(digit),)
        else:
            raise ValueError(kind)
    return nodes


# operations


def number(bits, of):
    """The value of a word, or the numerator of one."""
    return bits - (1 << of.width) if of.signed and bits >> (of.width - 1) else bits


def quotient(a, b):
    return abs(a) // abs(b) * (1 if (a < 0) == (b < 0) else -1)


def operation(node, types, words):
    """The word of an operation, None where it is undefined; `words` are defined but for a multiplexer's options."""
    op, mode, amount = node.detail
    width = node.of.width
    if op == "mux":
        return words[1 + words[0]] if words[0] < len(words) - 1 else None
    of, (a, *rest) = types[0], [number(word, of) for word, of in zip(words, types)]
    b = rest[0] if rest else None
    if op in ("cast", "round"):
        return rounded(mode, a * 2**node.of.frac, 2**of.frac) % 2**width
    if op == "div" and b == 0:
        return None
    exact = {
        "add": lambda: a + b, "sub": lambda: a - b, "neg": lambda: -a, "div": lambda: quotient(a, b),
        "mul": lambda: rounded(mode, a * b, 2**of.frac), "and": lambda: a & b, "or": lambda: a | b, "xor": lambda: a ^ b,
        "not": lambda: ~a, "shl": lambda: a << amount, "shr": lambda: a >> amount,
        "eq": lambda: a == b, "ne": lambda: a != b, "lt": lambda: a < b, "le": lambda: a <= b, "gt": lambda: a > b,
        "ge": lambda: a >= b,
    }
    return int(exact[op]()) % 2**width


# counters


def digit_at(digit, n):
    last, inc, _ = digit
    return n % (last // inc + 1) * inc


def part_at(digits, place, tick):
    """The last digit steps in each tick, each other one where all later ones begin again."""
    for last, inc, _ in digits[place + 1 :]:
        tick //= last // inc + 1
    return digit_at(digits[place], tick)


class Streams:
    """The words of all nodes in a run: `sources` has the words of each input by its name, `scalars` the word of each scalar."""

    def __init__(self, nodes, ticks, sources, scalars=None):
        self.nodes, self.ticks = nodes, ticks
        self.sources, self.scalars = sources, scalars or {}
        self.known, self.counts = {}, {}

    def word(self, n, tick):
        """The word of a node in a tick, or None; it is found without recursion, as a kernel may be deep."""
        stack, asked, answer = [], (n, tick), None
        while True:
            if asked in self.known:
                answer = self.known[asked]
                if answer is Streams:
                    raise ValueError("a node hangs on itself within a tick")
            else:
                stack.append(self.at(*asked))
                answer = None
            asked = None
            while stack and asked is None:
                try:
                    asked = stack[-1].send(answer)
                except StopIteration as stop:
                    stack.pop()
                    answer = stop.value
            if asked is None:
                return answer

    def at(self, n, tick):
        """Yields the (node, tick) whose words it needs; ends with its own."""
        if not 0 <= tick < self.ticks:
            return None
        key = (n, tick)
        self.known[key] = Streams
        word = yield from self.right_side(n, tick)
        self.known[key] = word
        return word

    def right_side(self, n, tick):
        node = self.nodes[n]
        if node.kind == "input":
            if not (yield from self.enabled(n, tick)):
                return None
            place = yield from self.count_before(n, tick)
            words = self.sources[node.name]
            return words[place] if place < len(words) else None
        if node.kind in ("output", "feed"):
            return (yield (node.operands[0], tick))
        if node.kind == "offset":
            return (yield (node.operands[0], tick + node.detail[0]))
        if node.kind == "scalar":
            return self.scalars[node.name]
        if node.kind == "constant":
            return node.detail[0]
        if node.kind == "hold":
            while tick >= 0:
                if (yield from self.enabled(n, tick)):
                    return (yield (node.operands[0], tick))
                tick -= 1
            return 0
        if node.kind == "counter":
            return digit_at(node.detail[0], tick)
        if node.kind == "chain counter":
            return part_at(self.nodes[node.operands[0]].detail, node.detail[0], tick)
        return (yield from self.operated(node, tick))

    def operated(self, node, tick):
        """A multiplexer needs its selector and the chosen option alone, every other operation all operands."""
        types = [self.nodes[k].of for k in node.operands]
        if node.detail[0] == "mux":
            selector = yield (node.operands[0], tick)
            if selector is None or selector + 1 >= len(node.operands):
                return None
            return (yield (node.operands[selector + 1], tick))
        words = []
        for k in node.operands:
            words.append((yield (k, tick)))
        return None if None in words else operation(node, types, words)

    def enabled(self, n, tick):
        """Whether a port's control, or a hold's store, is 1; an undefined one counts as 0."""
        control = self.nodes[n].control
        if control is None:
            return True
        return (yield (control, tick)) == 1

    def count_before(self, n, tick):
        """How many ticks before this one are enabled."""
        seen, count = self.counts.get(n, (0, 0))
        if seen > tick:
            seen, count = 0, 0
        while seen < tick:
            count += yield from self.enabled(n, seen)
            seen += 1
        self.counts[n] = (seen, count)
        return count

    def output(self, name):
        """The words of an output in its enabled ticks, None where one is undefined."""
        n = next(k for k, node in enumerate(self.nodes) if node.kind == "output" and node.name == name)
        words = []
        for tick in range(self.ticks):
            control = self.nodes[n].control
            if control is None or self.word(control, tick) == 1:
                words.append(self.word(n, tick))
        return words

    def unguarded(self):
        """The first tick and node whose control or store is undefined, or None."""
        for tick in range(self.ticks):
            for n, node in enumerate(self.nodes):
                if node.control is not None and self.word(node.control, tick) is None:
                    return n, tick
        return None

