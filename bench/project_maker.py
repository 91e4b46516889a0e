"""Random projects of several kernels, for bench/random_projects.py."""
import random
from dataclasses import dataclass, field

import building_run
import join_rules
import kernel_maker
import schedule_rules

MOST_KERNELS = 6
LENGTHS = [1, 2, 4, 8, 12]
DEEPEST = 5  # times that a feedback is lengthened


@dataclass
class Part:
    """A kernel of a project: its own name, that of its class, how it is made, and its calls."""

    name: str
    class_name: str
    maker: kernel_maker.Maker
    calls: list = None


@dataclass
class Made:
    """A project: its kernels in the order in which they are added, and its joins. A link is ((kernel, output), (kernel, input)), by
    numbers and names; a stream of the CPU has a name and the port that it is joined to."""

    kernels: list
    table: dict
    links: list = field(default_factory=list)
    from_cpu: dict = field(default_factory=dict)
    to_cpu: dict = field(default_factory=dict)
    joins: list = field(default_factory=list)
    source: str = ""
    built: object = None
    said: str = ""

    def write(self):
        self.source = "".join(part.maker.source(part.class_name) for part in self.kernels) + self.manager_text()
        built = building_run.build(self.source)
        if built.line:
            raise ValueError(f"{built.line}:\n{self.source}")
        self.built = built
        for part, (_, calls) in zip(self.kernels, built.kernels):
            part.calls = calls

    def manager_text(self):
        lines = [f'KernelBlock k{number} = addKernel(new {part.class_name}(makeKernelParameters("{part.name}")));'
                 for number, part in enumerate(self.kernels)]
        lines += [f"{left} <== {right};" for left, right in self.joins]
        body = "".join(f"    {line}\n" for line in lines)
        return f"class M extends CustomManager {{\n  M(EngineParameters e) {{\n    super(e);\n{body}  }}\n}}\n"

    def judged(self):
        return join_rules.judged([(part.name, part.calls) for part in self.kernels], self.built.manager, self.table, self.said)

    def told(self, what):
        return f"{what}\nby {self.table}:\n{self.source}"


def fed_kernel(free):
    """A kernel some of whose inputs are joined to outputs that are free yet, which are taken: how it is made, and (output, input)
    of each."""
    maker = kernel_maker.Maker(random.random() < 0.7)
    taken = []
    for output in random.sample(sorted(free), min(len(free), random.choice([0, 1, 1, 2, 2, 3]))):
        before = set(maker.inputs)
        of = free.pop(output)
        maker.pool.append(of)
        maker.input(of, maker.control(0.3))
        taken.append((output, next(name for name in maker.inputs if name not in before)))
    maker.fill(random.choice(LENGTHS))
    return maker, taken


def any_order(count):
    """The numbers that kernels get that were made in this order."""
    numbers = list(range(count))
    random.shuffle(numbers)
    return numbers if random.random() < 0.7 else sorted(numbers)


def any_project():
    """A project each of whose kernels reads outputs of those that were made before it, joined in any order."""
    count = random.choice([1, 2, 2, 3, 3, 4, 5, MOST_KERNELS])
    free, makers, links = {}, [], []
    for number in range(count):
        maker, taken = fed_kernel(free)
        links += [(output, (number, name)) for output, name in taken]
        makers.append(maker)
        free.update({(number, name): of for name, of in maker.outputs.items()})
    place = any_order(count)
    kernels = [None] * count
    for number, maker in enumerate(makers):
        name = random.choice([f"K{number}", f"k_{number}", f"Part{number}"])
        kernels[place[number]] = Part(name, f"C{number}", maker)
    made = Made(kernels, kernel_maker.any_table())
    made.links = [((place[a], output), (place[b], name)) for (a, output), (b, name) in links]
    join(made)
    made.write()
    lengthen(made)
    return made


def join(made):
    """Joins all ports: those that aren't linked to streams of the CPU, in any order."""
    to_input = {to: from_ for from_, to in made.links}
    from_output = {from_ for from_, _ in made.links}
    pairs = []
    for number, part in enumerate(made.kernels):
        for name in part.maker.inputs:
            end = f'k{number}.getInput("{name}")'
            if (number, name) in to_input:
                of, output = to_input[number, name]
                pairs.append((end, f'k{of}.getOutput("{output}")'))
            else:
                stream = f"s{len(made.from_cpu)}"
                made.from_cpu[stream] = (number, name)
                pairs.append((end, f'addStreamFromCPU("{stream}")'))
        for name in part.maker.outputs:
            if (number, name) not in from_output:
                stream = random.choice([f"t{len(made.to_cpu)}", f"s{len(made.to_cpu)}"])
                stream = stream if stream not in made.to_cpu else f"t{len(made.to_cpu)}"
                made.to_cpu[stream] = (number, name)
                pairs.append((f'addStreamToCPU("{stream}")', f'k{number}.getOutput("{name}")'))
    random.shuffle(pairs)
    made.joins = pairs


def lengthen(made):
    """Has feedback look back far enough, mostly."""
    for part in made.kernels:
        for _ in range(DEEPEST):
            code = schedule_rules.judged(part.name, part.calls, made.table, "")[0]
            if not part.maker.loops or code not in ("C1", "C2") or random.random() < 0.03:
                break
            for loop in part.maker.loops:
                loop.back = max(1, loop.back * 3 + random.randrange(3))
            made.write()
