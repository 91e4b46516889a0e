"""What docs/REFUSALS.md says of the joins of a manager: the refusals P1 to P5 and P7 to P9, and the lines of a project.

This is written from that page, and not from the program. Kernels are names with the lists of their calls, and a manager
is a run of one, as bench/building_run.py gives both.
"""
import re

import schedule_rules

MOST_KERNELS = 64
LINK = re.compile(r"link (\d+) depth (\d+)")
DEEP = re.compile(r"refused P6 (\d+) (\d+)")
MOST_WORDS = 65_536
CPU = "CPU"


def first_again(items):
    """The first item that was met before, or None."""
    met = set()
    for item in items:
        if item in met:
            return item
        met.add(item)
    return None


def ports_of(calls):
    """The ports of a kernel in node order: whether each is an input, its name and its type."""
    for call in calls:
        if call[0] in ("input", "output"):
            yield call[0] == "input", call[1], call[2] if call[0] == "input" else call[-1]


class Joins:
    """The ends of a manager's joins. An end is whether words go to it, its kernel's number or the CPU, and its name."""

    def __init__(self, kernels, manager):
        self.names = [name for name, _ in kernels]
        self.types = {(is_input, number, name): type_
                      for number, (_, calls) in enumerate(kernels) for is_input, name, type_ in ports_of(calls)}
        self.from_cpu, self.to_cpu = manager.from_cpu, manager.to_cpu
        self.pairs = [((True, *left), (False, *right)) for left, right in manager.joins]
        self.ends = [end for pair in self.pairs for end in pair]
        self.known = [*self.types, *((False, CPU, name) for name in self.from_cpu), *((True, CPU, name) for name in self.to_cpu)]

    def told(self, end):
        """A port with its kernel's name and a dot before its own, a stream of the CPU by its name alone."""
        return end[2] if end[1] == CPU else f"{self.names[end[1]]}.{end[2]}"

    def name_again(self):
        return first_again(self.names) or first_again(self.from_cpu) or first_again(self.to_cpu)

    def links(self):
        return [(left, right) for left, right in self.pairs if CPU not in (left[1], right[1])]

    def refusal(self):
        """The line of the first rule that is broken but that of loops, or None."""
        again = self.name_again()
        if again:
            return f"refused P7 {again}"
        if not 1 <= len(self.names) <= MOST_KERNELS:
            return f"refused P9 {len(self.names)}"
        unknown = next((end for end in self.ends if end not in self.known), None)
        if unknown:
            return f"refused P1 {self.names[unknown[1]]} {unknown[2]}"
        twice = first_again(self.ends)
        if twice:
            return f"refused P3 {self.told(twice)}"
        through = next((left for left, right in self.pairs if left[1] == right[1] == CPU), None)
        if through:
            return f"refused P8 {through[2]}"
        other = next((left for left, right in self.links() if self.types[left] != self.types[right]), None)
        if other:
            return f"refused P4 {self.told(other)}"
        loose = next((end for end in self.known if end not in self.ends), None)
        return loose and f"refused P2 {self.told(loose)}"

    def has_loop(self):
        """Whether kernels are linked in a loop: some are left when those that wait for none of them are taken away."""
        left = set(range(len(self.names)))
        taken = True
        while taken:
            waiting = {to[1] for to, from_ in self.links() if from_[1] in left}
            taken = left - waiting
            left -= taken
        return bool(left)

    def is_loop(self, names):
        """Whether kernels of these names are linked each to the next one, and the last one to the first."""
        links = {(self.names[from_[1]], self.names[to[1]]) for to, from_ in self.links()}
        return bool(names) and all(link in links for link in zip(names, names[1:] + names[:1]))


def judged_links(joins, lines):
    """Whether these lines say a depth of each link that it may have."""
    depths = [LINK.fullmatch(line) for line in lines]
    return len(lines) == len(joins.links()) and all(
        match and int(match[1]) == number and 2 <= int(match[2]) <= MOST_WORDS for number, match in enumerate(depths))


def judged(kernels, manager, table, said):
    """Whether the lines are right of a source whose constructors' runs end well: the code that stands, and whether they are."""
    joins = Joins(kernels, manager)
    line = joins.refusal()
    if line:
        return line.split()[1], said == line
    if joins.has_loop():
        return "P5", said.startswith("refused P5 ") and joins.is_loop(said.split()[2:])
    lines = said.split("\n")
    own = lines[: len(kernels)] + [said] * (len(kernels) - len(lines))
    found = [schedule_rules.judged(name, calls, table, line) for (name, calls), line in zip(kernels, own)]
    for codes in (("L1", "C1", "C2"), ("B1",)):
        for number, (code, _) in enumerate(found):
            if code in codes:
                return schedule_rules.judged(*kernels[number], table, said)
    deep = DEEP.fullmatch(said)
    if deep:
        return "P6", int(deep[1]) < len(joins.links()) and int(deep[2]) > MOST_WORDS
    right = len(lines) >= len(kernels) and all(is_right for _, is_right in found)
    return "none", right and judged_links(joins, lines[len(kernels):])
