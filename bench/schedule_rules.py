"""What docs/SCHEDULES.md says of a kernel's schedules: the refusals L1, C1, C2 and B1, judged by the calls that make it, and the
fewest bits that its FIFOs hold.

This is written from that page, and not from the program. A kernel is a name and the list of its calls, as
bench/building_run.py gives them; a table is the JSON value of a latency table.
"""
import heapq
import re

FREE = {"shl", "shr", "cast"}
STEADY = {"constant", "scalar"}
MOST_BITS = 2**28
MOST_COUNTED = 250  # nodes that read or are read: the fewest bits are found in no greater kernel
WALK = re.compile(r"refused (C[12]) (\w+) latency (\d+) back (-?\d+) nodes((?: \d+)+)")
BITS = re.compile(r"(kernel|refused B1) (\w+)(?: fifo)? (\d+)")


class Kernel:
    """The nodes of a kernel: kinds, values and operands, with the edges past its offsets."""

    def __init__(self, calls):
        made = [call for call in calls if call[0] != "connect"]
        connected = {call[1]: call[2] for call in calls if call[0] == "connect"}
        self.kinds = [call[0] for call in made]
        self.values = [call[1:] for call in made]
        self.operands = [operands_of(kind, values) for kind, values in zip(self.kinds, self.values)]
        for feed, value in connected.items():
            self.operands[feed] = [value]
        self.widths = [width_of(kind, values) for kind, values in zip(self.kinds, self.values)]
        for node, kind in enumerate(self.kinds):
            if kind == "chain counter":
                self.widths[self.operands[node][0]] += self.widths[node]
        self.edges = list(self.edges_into())

    def source(self, node):
        """The node behind offset nodes, and their sum."""
        ahead = 0
        while self.kinds[node] == "offset":
            ahead += self.values[node][1]
            node = self.operands[node][0]
        return node, ahead

    def edges_into(self):
        for reader, kind in enumerate(self.kinds):
            if kind == "offset":
                continue
            for operand in self.operands[reader]:
                node, ahead = self.source(operand)
                if self.kinds[node] not in STEADY:
                    yield node, reader, ahead

    def latency(self, node, table):
        """The ticks of a node, or None where the table has none; and the operation and the width that decide."""
        if self.kinds[node] != "operation":
            return 0, None
        op = self.values[node][0]
        width = self.widths[self.operands[node][1 if op == "mux" else 0]]
        if op in FREE:
            return 0, (op, width)
        rows = [ticks for least, ticks in table.get(op, []) if least <= width]
        return (rows[-1] if rows else None), (op, width)


def operands_of(kind, values):
    if kind == "input":
        found = [values[2]]
    elif kind == "output":
        found = [values[1], values[2]]
    elif kind == "operation":
        found = values[3]
    elif kind == "offset":
        found = [values[0]]
    elif kind == "hold":
        found = values[:2]
    elif kind == "chain counter":
        found = values[:1]
    else:
        found = []
    return [node for node in found if node is not None]


def width_of(kind, values):
    if kind in ("counter", "chain counter"):
        return values[-1]
    if kind == "chain":
        return 0  # to which its counters add theirs
    return values[1 if kind == "input" else -1].width


def components(nodes, edges):
    """Which component of nodes on common closed walks each node is in (Tarjan, SIAM Journal on Computing 1, 1972)."""
    following = [[] for _ in range(nodes)]
    for start, end, _ in edges:
        following[start].append(end)
    order, low, component, stack, count = {}, {}, {}, [], 0
    for root in range(nodes):
        if root in order:
            continue
        work = [(root, iter(following[root]))]
        order[root] = low[root] = len(order)
        stack.append(root)
        while work:
            node, ends = work[-1]
            for end in ends:
                if end not in order:
                    order[end] = low[end] = len(order)
                    stack.append(end)
                    work.append((end, iter(following[end])))
                    break
                if end not in component:
                    low[node] = min(low[node], order[end])
            else:
                work.pop()
                if work:
                    low[work[-1][0]] = min(low[work[-1][0]], low[node])
                if low[node] == order[node]:
                    while True:
                        member = stack.pop()
                        component[member] = count
                        if member == node:
                            break
                    count += 1
    return component


def has_positive_walk(nodes, arcs):
    """Whether the needs of some closed walk sum above 0: whether raising numbers never ends (Bellman and Ford)."""
    inside = components(nodes, arcs)
    arcs = [arc for arc in arcs if inside[arc[0]] == inside[arc[1]]]
    numbers = [0] * nodes
    for _ in range(nodes + 1):
        raised = False
        for start, end, need in arcs:
            if numbers[start] + need > numbers[end]:
                numbers[end] = numbers[start] + need
                raised = True
        if not raised:
            return False
    return True


class Flow:
    """The flow from nodes to the places behind them where their words are read last, along arcs (start, end, need) that take any
    amount. `times` stand at least so far apart as the arcs need, so the slack of an arc is never below 0, nor that of an arc
    turned round where something flows: that one is the price of sending less."""

    def __init__(self, count, arcs, surplus):
        self.arcs, self.surplus = arcs, surplus
        self.times = longest(count, arcs)
        self.amounts = [0] * len(arcs)
        self.at = [[] for _ in range(count)]
        for number, (start, end, _) in enumerate(arcs):
            self.at[start].append((number, end, 1))
            self.at[end].append((number, start, -1))

    def slack(self, number):
        start, end, need = self.arcs[number]
        return self.times[end] - self.times[start] - need

    def ways(self):
        """The least price from a node with a surplus to each node up to the first one that lacks some (Dijkstra), and by which
        step each was come to; and that one."""
        prices = {node: 0 for node, amount in enumerate(self.surplus) if amount > 0}
        steps, fixed = {}, {}
        heap = [(0, node) for node in prices]
        while heap:
            price, node = heapq.heappop(heap)
            if node in fixed:
                continue
            fixed[node] = price
            if self.surplus[node] < 0:
                return fixed, steps, node
            for number, other, way in self.at[node]:
                if other in fixed or (way < 0 and self.amounts[number] == 0):
                    continue
                through = price + way * self.slack(number)
                if other not in prices or through < prices[other]:
                    prices[other] = through
                    steps[other] = (number, node, way)
                    heapq.heappush(heap, (through, other))
        raise ValueError("a surplus that no way leads away")

    def send(self):
        """Sends as much as one cheapest way takes; the times then have no slack along it."""
        fixed, steps, last = self.ways()
        for node, price in fixed.items():
            self.times[node] += fixed[last] - price
        way, node = [], last
        while node in steps:
            way.append(steps[node])
            node = steps[node][1]
        amount = min([self.surplus[node], -self.surplus[last]] + [self.amounts[number] for number, _, sign in way if sign < 0])
        for number, _, sign in way:
            self.amounts[number] += sign * amount
        self.surplus[node] -= amount
        self.surplus[last] += amount

    def worth(self):
        while any(self.surplus):
            self.send()
        return sum(amount * need for amount, (_, _, need) in zip(self.amounts, self.arcs))


def longest(count, arcs):
    """The least numbers from 0 that stand at least so far apart as the arcs need."""
    times = [0] * count
    raised = True
    while raised:
        raised = False
        for start, end, need in arcs:
            if times[start] + need > times[end]:
                times[end] = times[start] + need
                raised = True
    return times


def fewest_bits(kernel, ticks):
    """The fewest bits that FIFOs hold in a schedule of a kernel that has one, or None where the kernel is too great."""
    numbers = {node: number for number, node in enumerate(sorted({node for edge in kernel.edges for node in edge[:2]}))}
    if len(numbers) > MOST_COUNTED:
        return None
    arcs, surplus, base = [], [0] * (2 * len(numbers)), 0
    for start, end, ahead in kernel.edges:
        arcs.append((numbers[start], numbers[end], ticks[start] + ahead))
        arcs.append((numbers[end], len(numbers) + numbers[start], -ahead))
    for node in {edge[0] for edge in kernel.edges}:
        surplus[numbers[node]] = kernel.widths[node]
        surplus[len(numbers) + numbers[node]] = -kernel.widths[node]
        base += kernel.widths[node] * ticks[node]
    return Flow(2 * len(numbers), arcs, surplus).worth() - base


def is_walk(kernel, ticks, said, name):
    """Whether a line shows a closed walk of the kernel, with its sums, from its least node on: its code, latency and back."""
    match = WALK.fullmatch(said)
    if not match or match[2] != name:
        return None
    latency, back, walk = int(match[3]), int(match[4]), [int(node) for node in match[5].split()]
    sums = {0}
    for start, end in zip(walk, walk[1:] + walk[:1]):
        sums = {total + ahead for total in sums for a, b, ahead in kernel.edges if (a, b) == (start, end)}
    if -back not in sums or latency != sum(ticks[node] for node in walk) or walk[0] != min(walk):
        return None
    return match[1], latency, back


def judged(name, calls, table, said):
    """Whether a line is right of a kernel that breaks no rule: the code that stands, and whether it is said rightly."""
    kernel = Kernel(calls)
    found = [kernel.latency(node, table) for node in range(len(kernel.kinds))]
    for ticks, decides in found:
        if ticks is None:
            return "L1", said == f"refused L1 {name} {decides[0]} {decides[1]}"
    ticks = [ticks for ticks, _ in found]
    nodes = len(ticks)
    walk = is_walk(kernel, ticks, said, name)
    if has_positive_walk(nodes, [(start, end, ahead * nodes + 1) for start, end, ahead in kernel.edges]):
        return "C1", walk is not None and walk[0] == "C1" and walk[2] <= 0
    if has_positive_walk(nodes, [(start, end, ticks[start] + ahead) for start, end, ahead in kernel.edges]):
        return "C2", walk is not None and walk[0] == "C2" and walk[2] < walk[1]
    return judged_bits(name, kernel, ticks, said)


def judged_bits(name, kernel, ticks, said):
    """The same of a kernel that has a schedule."""
    match = BITS.fullmatch(said)
    bits = fewest_bits(kernel, ticks)
    if bits is None:
        bits = int(match[3]) if match else 0
    if bits > MOST_BITS:
        return "B1", said == f"refused B1 {name} {bits}"
    return "none", said == f"kernel {name} fifo {bits}"
