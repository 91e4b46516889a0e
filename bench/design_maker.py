#!/usr/bin/env python3
"""Random designs of the Verilog subset, each with a run: a text, a run file and files of words.

A design has two or three modules below the top, each with an instance of the one before, and a top module
with the ports of a text that is run: one or two kernels, scalars, inputs, outputs and `done`. It is the
same for the same seed.
"""
import collections
import dataclasses
import json
import pathlib
import random

from module_maker import ModuleMaker, random_digits, random_width, random_word

MOST_EDGES = 60


@dataclasses.dataclass
class Design:
    """A text, its run file, the words of its input files by file name, and how often it uses each form."""

    text: str
    run: dict
    words: dict
    forms: collections.Counter

    def write(self, folder):
        """Writes the files into the folder, and answers the paths of the text and the run file."""
        folder = pathlib.Path(folder)
        for name, text in {**self.words, "text.v": self.text, "run.json": json.dumps(self.run)}.items():
            (folder / name).write_text(text)
        return folder / "text.v", folder / "run.json"


@dataclasses.dataclass
class Streams:
    """What the ports of a top module are: names of kernels, scalars as (kernel, name, width), and inputs and outputs as
    (name, width)."""

    kernels: list
    scalars: list
    inputs: list
    outputs: list


def inner_module(chance, name, modules):
    """A module that stands below the top, with an instance of the last of these modules and perhaps of others."""
    ports = [("input", "clk", 1), ("input", "reset", 1), ("output", "all", chance.choice([16, 32, 64, 128]))]
    ports += [("input", f"i{k}", random_width(chance)) for k in range(chance.randint(1, 4))]
    ports += [("output", f"o${k}", random_width(chance)) for k in range(chance.randint(1, 3))]
    chance.shuffle(ports)
    maker = ModuleMaker(chance, name, ports, ["all"])
    add_storage(maker, chance.randint(1, 3), chance.randint(0, 1))
    maker.fill(chance.randint(8, 18), instanced(chance, modules))
    maker.drive_free_outputs()
    maker.write_storage()
    maker.drive_by_all(maker.by_name["all"])
    return maker.module()


def add_storage(maker, registers, memories):
    """Adds a counter, registers, some of them of the same width, and memories."""
    maker.add_counter()
    for _ in range(registers):
        widths = [net.width for net in maker.registers] + [random_width(maker.chance)]
        maker.add_register(maker.chance.choice(widths))
    for _ in range(memories):
        maker.add_memory()


def instanced(chance, modules):
    """The modules that a module has instances of: the last of these, and perhaps a further one."""
    return modules[-1:] + [chance.choice(modules) for _ in range(chance.randint(0, 1)) if modules]


def random_streams(chance):
    kernels = ["K", "Second2"][: chance.randint(1, 2)]
    scalars = [(kernel, name, random_width(chance)) for kernel in kernels for name in ["a", "B1"] if chance.randrange(2)]
    inputs = [(f"x{k}", random_width(chance)) for k in range(chance.choice([0, 1, 1, 2, 2, 3]))]
    outputs = [("y", chance.choice([16, 32, 64, 100, 128]))]
    outputs += [(f"z{k}", random_width(chance)) for k in range(chance.randint(0, 2))]
    return Streams(kernels, scalars, inputs, outputs)


def top_ports(streams):
    """The ports of a top module, in order, as (direction, name, width)."""
    ports = [("input", "clk", 1), ("input", "reset", 1)]
    for kernel in streams.kernels:
        ports += [("input", f"hold${kernel}", 1), ("input", f"ticks${kernel}", 48)]
    ports += [("input", f"scalar${kernel}${name}", width) for kernel, name, width in streams.scalars]
    for name, width in streams.inputs:
        ports += [("input", f"in${name}$data", width), ("input", f"in${name}$valid", 1), ("output", f"in${name}$ready", 1)]
    for name, width in streams.outputs:
        ports += [("output", f"out${name}$data", width), ("output", f"out${name}$valid", 1), ("input", f"out${name}$ready", 1)]
    return ports + [("output", "done", 1)]


def top_module(chance, modules, streams):
    """The top module: its first output's data is what all nets have a part in."""
    moves = [f"in${name}$ready" for name, _ in streams.inputs] + [f"out${name}$valid" for name, _ in streams.outputs]
    name = chance.choice(["top$project", "t_op", "m"])
    maker = ModuleMaker(chance, name, top_ports(streams), ["out$y$data", "done"] + moves)
    add_storage(maker, chance.randint(2, 4), chance.randint(1, 2))
    maker.fill(chance.randint(14, 28), instanced(chance, modules))
    maker.drive_free_outputs()
    goes = [maker.under_a_sign("^", maker.by_name[f"hold${kernel}"], maker.constant(1, 1)) for kernel in streams.kernels]
    for port in moves:
        drive_move(maker, maker.by_name[port], chance.choice(goes))
    drive_done(maker, streams.kernels)
    maker.write_storage()
    maker.drive_by_all(maker.by_name["out$y$data"])
    return maker.module()


def drive_move(maker, port, go):
    """Assigns a ready or a valid: where the kernel isn't held, where besides some bit is 1, or any expression."""
    kind = maker.chance.choice([0, 0, 1, 2])
    if kind == 0:
        maker.assign(port, *maker.the_net(go))
    elif kind == 1:
        bit = maker.pick(1)
        maker.assign(port, "&", f"{go.name} & {bit.name}", [go, bit])
    else:
        maker.assign(port, *maker.expression(1))


def drive_done(maker, kernels):
    """Assigns `done`: 0, or 1 once a counter of edges has passed a number or stands at the ticks; sometimes a port
    that is 0 where `done` is looked at must be 0 besides."""
    chance, done = maker.chance, maker.by_name["done"]
    kind = chance.randrange(4)
    if kind == 0:
        maker.assign(done, *maker.literal(1, 0))
        return
    width = chance.randint(6, 48)
    count = edge_count(maker, width)
    if kind == 1:
        ticks = maker.by_name[f"ticks${chance.choice(kernels)}"]
        last = maker.assign(maker.wire(width), "a[h:l]", f"{ticks.name}[{width - 1}:0]", [ticks])
        maker.assign(done, "==", f"{count.name} == {last.name}", [count, last])
        return
    last = maker.constant(width, chance.randint(0, MOST_EDGES // 2))
    passed = maker.assign(maker.wire(1), "<", f"{last.name} < {count.name}", [last, count])
    if kind == 2:
        maker.assign(done, *maker.the_net(passed))
        return
    side = maker.by_name[chance.choice([f"hold${kernels[0]}", "out$y$ready"])]
    quiet = maker.assign(maker.wire(1), "~", f"~{side.name}", [side])
    maker.assign(done, "&", f"{passed.name} & {quiet.name}", [passed, quiet])


def edge_count(maker, width):
    """A register that is 0 after reset and rises by 1 in each edge, or where some bit is 1."""
    count = maker.held(width)
    raised = maker.under_a_sign("+", count, maker.constant(width, 1))
    maker.update(count.name, *maker.set_by_reset(maker.enable(), raised, maker.constant(width, 0)))
    return count


def run_of(chance, streams):
    """A run file for these ports."""
    run = {
        "ticks": {kernel: chance.choice([chance.randint(0, MOST_EDGES // 2), chance.getrandbits(40)]) for kernel in streams.kernels},
        "inputs": {name: f"{name}.txt" for name, _ in streams.inputs},
        "outputs": {name: f"{name}.out" for name, _ in streams.outputs},
        "edges": chance.randint(20, MOST_EDGES),
    }
    if streams.scalars:
        run["scalars"] = {f"{kernel}.{name}": random_digits(chance, random_word(chance, width), 32) for kernel, name, width in streams.scalars}
    if chance.randrange(4):
        run["pattern"] = chance.getrandbits(chance.choice([3, 64]))
    if chance.randrange(4):
        run["fill"] = random_digits(chance, random_word(chance, chance.choice([8, 128, 128])), 32)
    return run


def file_of_words(chance, width):
    """Up to as many words as a run has edges; the last line may lack its end."""
    words = [random_digits(chance, random_word(chance, width), 32) for _ in range(chance.randint(0, MOST_EDGES))]
    return "\n".join(words) + ("\n" if words and chance.randrange(4) else "")


def design(seed):
    """The design of a seed."""
    chance = random.Random(seed)
    modules = []
    for name in ["leaf", "mid$1", "Mid"][: chance.randint(2, 3)]:
        modules.append(inner_module(chance, name, modules))
    streams = random_streams(chance)
    modules.append(top_module(chance, modules, streams))
    run = run_of(chance, streams)
    words = {f"{name}.txt": file_of_words(chance, width) for name, width in streams.inputs}
    forms = sum((module.forms for module in modules), collections.Counter())
    return Design("".join(module.text for module in modules), run, words, forms + forms_of_run(run, streams))


def forms_of_run(run, streams):
    """What the ports and the run file of a design are, for the count of forms."""
    found = {
        "two kernels": len(streams.kernels) == 2,
        "scalar": bool(streams.scalars),
        "several inputs": len(streams.inputs) > 1,
        "several outputs": len(streams.outputs) > 1,
        "stalls": run.get("pattern", 0) != 0,
        "fill": int(run.get("fill", "0"), 16) != 0,
    }
    return collections.Counter({form: 1 for form, holds in found.items() if holds})
