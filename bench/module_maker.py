#!/usr/bin/env python3
"""Random modules of the Verilog subset.

A module is made net by net: each assignment reads nets that are there already, and a port of an
instance is there once the inputs that have a part in it are joined. So no net hangs on itself within an
edge, also through instances; an input that has no part in any output of the instance is joined last, and
may then hang on these outputs. Registers and memories are there from the start and are written last.

Where the standard has no value the text asks for none: no divisor is 0, and each address that is read is
below the depth of its memory. `clk` is read by update blocks alone.
"""
import collections
import dataclasses
import functools
import re

SIGNS = ["+", "-", "*", "&", "|", "^"]
EXPRESSIONS = ["name", "literal", "~"] + SIGNS + ["/", "==", "<", "{a, b}", "{n{a}}", "a[h:l]", "c ? a : b", "m[a]"]
NAME = re.compile(r"(?<!')\b[A-Za-z_][\w$]*")
# An event-driven simulator evaluates a net again for each way of assignments that leads to it.
MOST_WAYS = 64
WIDEST = 128
# Icarus 11 cuts an address at 32 bits, so only narrower ones may pass the depth.
WIDEST_PAST_DEPTH = 31
# Icarus 11 gives 0 for a wider word by 1.
WIDEST_BY_ONE = 64


@dataclasses.dataclass(eq=False)
class Net:
    """A net: the number of ways that lead to it from registers and inputs (0 for a constant), the input ports and
    the instances that have a part in its value within an edge, and the number of places that read it."""

    name: str
    width: int
    ways: int = 1
    inputs: frozenset = frozenset()
    parts: frozenset = frozenset()
    reads: int = 0


@dataclasses.dataclass(eq=False)
class Memory:
    """A memory, with the nets that are addresses of it so far."""

    name: str
    width: int
    depth: int
    addresses: list


@dataclasses.dataclass(eq=False)
class Module:
    """A module that is made: its ports as (direction, net), its text, the forms that it uses, and how
    many levels of instances stand in it."""

    name: str
    ports: list
    text: str
    forms: collections.Counter
    levels: int


@dataclasses.dataclass(eq=False)
class Part:
    """An instance, with the nets that its ports are joined to so far."""

    name: str
    module: Module
    joined: dict


def random_width(chance):
    """A width from 1 to 128: one bit often, the ends of machine words more often than others."""
    kind = chance.randrange(8)
    if kind < 2:
        return 1
    if kind < 5:
        return chance.randint(2, 16)
    if kind == 5:
        return chance.choice([31, 32, 33, 63, 64, 65, 127, 128])
    return chance.randint(17, WIDEST)


def random_word(chance, width):
    """A word of so many bits: any, or one of few low bits, 0, or all ones."""
    kind = chance.randrange(6)
    if kind < 3:
        return chance.getrandbits(width)
    if kind == 3:
        return chance.getrandbits(min(width, 3))
    return 0 if kind == 4 else 2**width - 1


def random_digits(chance, word, most):
    """The word in hexadecimal digits of either case, with zeros before it, at most so many digits."""
    digits = f"{word:x}"
    digits = "0" * chance.choice([0, 0, 0, 1, max(0, most - len(digits))]) + digits
    return (digits.upper() if chance.randrange(2) else digits)[-most:]


def class_of(width):
    """The class of a width, for the count of forms."""
    names = [(1, "width 1"), (63, "width 2 to 63"), (64, "width 64"), (127, "width 65 to 127"), (128, "width 128")]
    return next(name for most, name in names if width <= most)


class ModuleMaker:
    """Makes one module of these ports, a list of (direction, name, width). The `kept` outputs are joined to no instance; the
    caller drives them."""

    def __init__(self, chance, name, ports, kept):
        self.chance, self.name = chance, name
        self.forms = collections.Counter()
        self.statements, self.updates = [], []
        self.declarations, self.taken = {}, {port for _, port, _ in ports}
        self.registers, self.memories, self.parts = [], [], []
        self.counters = []
        self.shown = []  # the nets in which all bits are to have a part in an output
        self.ports = [(way, Net(port, width, inputs=frozenset([port] if way == "input" else []))) for way, port, width in ports]
        self.by_name = {net.name: net for _, net in self.ports}
        self.nets = [net for way, net in self.ports if way == "input" and net.name != "clk"]
        self.free_outputs = [net for way, net in self.ports if way == "output" and net.name not in kept]

    def fresh_name(self):
        """A name that no other thing of this module has, and that no standard reserves."""
        letter = self.chance.choice("abcdefgwxyzABXYZ_")
        name = letter + self.chance.choice(["", "", "$", "_$"]) + str(len(self.taken))
        self.taken.add(name)
        return name

    def declare(self, net, kind):
        self.declarations[net.name] = f"{kind} [{net.width - 1}:0] {net.name};"
        self.forms[class_of(net.width)] += 1
        return net

    def wire(self, width):
        return self.declare(Net(self.fresh_name(), width), "wire")

    # Storage.

    def add_register(self, width):
        """A register of this width, which `write_storage` writes."""
        self.registers.append(self.held(width))
        return self.registers[-1]

    def held(self, width):
        """A register of this width, which the caller writes."""
        net = self.declare(Net(self.fresh_name(), width), "reg")
        self.nets.append(net)
        self.forms["register"] += 1
        return net

    def add_counter(self):
        """A register of many bits to which an odd number is added in each edge, from any word."""
        count = self.held(self.chance.randint(24, WIDEST))
        step = self.constant(count.width, self.chance.getrandbits(count.width) | 1)
        self.update(count.name, self.constant(1, 1), self.under_a_sign("+", count, step))
        self.counters.append(count)

    def add_memory(self):
        depth = self.chance.choice([1, 2, 4, 8, 64, self.chance.randint(2, 7), self.chance.randint(2, 100)])
        memory = Memory(self.fresh_name(), random_width(self.chance), depth, [])
        self.declarations[memory.name] = f"reg [{memory.width - 1}:0] {memory.name} [0:{depth - 1}];"
        self.memories.append(memory)
        self.forms["memory"] += 1

    # Nets to read.

    def read(self, net):
        net.reads += 1
        return net

    def choose(self, there):
        """One of these nets, mostly one that is no constant and that nothing reads yet."""
        changing = [net for net in there if net.ways > 0]
        there = changing if changing and self.chance.randrange(8) else there
        unread = [net for net in there if net.reads == 0]
        return self.chance.choice(unread if unread and self.chance.randrange(4) else there)

    def readable(self, most=MOST_WAYS):
        return [net for net in self.nets if net.ways <= most]

    def pick(self, width, most=MOST_WAYS, beside=None):
        """A net of this width to which so many ways lead at most: one that is there, or one made of another."""
        there = [net for net in self.readable(most) if net.width == width and net is not beside]
        if there and self.chance.randrange(5):
            return self.choose(there)
        return self.fitted(self.choose(self.readable(most)), width)

    def pick_changing(self, width):
        """A net of this width: bits of a counter, or any."""
        return self.fitted(self.chance.choice(self.counters), width) if self.chance.randrange(2) else self.pick(width)

    def pick_two(self, width):
        first = self.pick(width)
        return first, self.pick(width, beside=first)

    def fitted(self, net, width):
        """A net of this width made of another one: a part of it, or it with further bits at one side."""
        if net.width == width:
            return net
        if net.width > width:
            return self.assign(self.wire(width), *self.part_of(net, width))
        if width % net.width == 0 and self.chance.randrange(2):
            return self.assign(self.wire(width), *self.repeated(net, width // net.width))
        pair = [net, self.filler(width - net.width, max(net.ways, 1))]
        self.chance.shuffle(pair)
        return self.assign(self.wire(width), *self.joined_bits(*pair))

    def filler(self, width, most):
        """A net of this width to which so many ways lead at most: one that is there, copies of a bit, or a constant."""
        there = [net for net in self.readable(most) if net.width == width]
        bits = [net for net in self.readable(most) if net.width == 1]
        if there and self.chance.randrange(4):
            return self.choose(there)
        if bits and self.chance.randrange(4):
            return self.assign(self.wire(width), *self.repeated(self.choose(bits), width))
        return self.constant(width)

    def constant(self, width, word=None):
        return self.assign(self.wire(width), *self.literal(width, word))

    def under_a_sign(self, sign, left, right):
        return self.assign(self.wire(left.width), sign, f"{left.name} {sign} {right.name}", [left, right])

    # Assignments. An expression is its form, its text and the nets that it reads.

    def assign(self, target, form, text, operands):
        """Adds the assignment. The target can be read from now on."""
        for net in operands:
            self.read(net)
        self.forms[form] += 1
        self.statements.append(f"assign {target.name} = {text};")
        target.ways = sum(net.ways for net in operands)
        target.inputs = frozenset().union(*[net.inputs for net in operands])
        target.parts = frozenset().union(*[net.parts for net in operands])
        self.nets.append(target)
        return target

    def expression(self, width):
        """A random expression for a target of this width."""
        forms = [form for form in EXPRESSIONS if form not in ("==", "<", "{a, b}", "m[a]")]
        forms += ["==", "<"] if width == 1 else ["{a, b}"]
        forms += ["m[a]" for memory in self.memories if memory.width == width]
        return self.expression_of(self.chance.choice(forms), width)

    def expression_of(self, form, width):
        if form in SIGNS:
            left, right = self.pick_two(width)
            return form, f"{left.name} {form} {right.name}", [left, right]
        makers = {
            "name": self.plain, "literal": self.literal, "~": self.inverted, "/": self.quotient, "==": self.equal, "<": self.less,
            "{a, b}": self.two_parts, "{n{a}}": self.copies, "a[h:l]": self.part, "c ? a : b": self.choice, "m[a]": self.memory_word,
        }
        return makers[form](width)

    def the_net(self, net):
        return "name", net.name, [net]

    def plain(self, width):
        return self.the_net(self.pick(width))

    def literal(self, width, word=None):
        word = random_word(self.chance, width) if word is None else word
        return "literal", f"{width}'h{random_digits(self.chance, word, (width + 3) // 4)}", []

    def inverted(self, width):
        net = self.pick(width)
        return "~", f"~{net.name}", [net]

    def quotient(self, width):
        """A quotient by a divisor that is or'ed with 1, or with 2 where Icarus can't divide by 1; half of the divisors have few
        bits."""
        left, right = self.pick_two(width)
        if width > 4 and self.chance.randrange(2):
            few = self.chance.randint(1, width - 1)
            right = self.assign(self.wire(width), *self.joined_bits(self.constant(width - few, 0), self.pick(few)))
        right = self.under_a_sign("|", right, self.constant(width, 1 if width <= WIDEST_BY_ONE else 2))
        return "/", f"{left.name} / {right.name}", [left, right]

    def equal(self, _):
        left, right = self.pick_two(self.chance.randint(1, 3)) if self.chance.randrange(2) else self.near_words()
        return "==", f"{left.name} == {right.name}", [left, right]

    def less(self, _):
        left, right = self.pick_two(random_width(self.chance)) if self.chance.randrange(2) else self.near_words()
        return "<", f"{left.name} < {right.name}", [left, right]

    def near_words(self):
        """A net, often a wide one, and one that is the same where some bit is 1 and else differs from it in one bit."""
        width = self.chance.choice([random_width(self.chance), self.chance.randint(65, WIDEST)])
        net = self.pick(width)
        other = self.under_a_sign("^", net, self.constant(width, 1 << self.chance.randrange(width)))
        return net, self.assign(self.wire(width), *self.chosen(self.pick_changing(1), net, other))

    def joined_bits(self, high, low):
        return "{a, b}", "{%s, %s}" % (high.name, low.name), [high, low]

    def two_parts(self, width):
        high = self.chance.randint(1, width - 1)
        return self.joined_bits(self.pick(high), self.pick(width - high))

    def repeated(self, net, times):
        return "{n{a}}", "{%d{%s}}" % (times, net.name), [net]

    def copies(self, width):
        times = self.chance.choice([times for times in range(1, width + 1) if width % times == 0])
        return self.repeated(self.pick(width // times), times)

    def part_of(self, net, width, low=None):
        low = self.chance.randint(0, net.width - width) if low is None else low
        return "a[h:l]", f"{net.name}[{low + width - 1}:{low}]", [net]

    def part(self, width):
        wider = [net for net in self.readable() if net.width >= width]
        return self.part_of(self.choose(wider) if wider else self.pick(width), width)

    def chosen(self, condition, yes, no):
        return "c ? a : b", f"{condition.name} ? {yes.name} : {no.name}", [condition, yes, no]

    def choice(self, width):
        return self.chosen(self.pick(1), *self.pick_two(width))

    def memory_word(self, width):
        return self.word_of(self.chance.choice([memory for memory in self.memories if memory.width == width]))

    def word_of(self, memory):
        address = self.address(memory)
        memory.addresses.append(address)
        return "m[a]", f"{memory.name}[{address.name}]", [address]

    def address(self, memory):
        """An address below the depth: one that there is, or of just the bits that it needs, masked, or 0 where it would
        pass."""
        if memory.addresses and self.chance.randrange(2):
            return self.chance.choice(memory.addresses)
        last = memory.depth - 1
        least = last.bit_length()
        if memory.depth == 2**least and least > 0 and self.chance.randrange(2):
            return self.pick_changing(least)
        width = max(least + 1, self.chance.choice([1, least + 2, WIDEST, random_width(self.chance)]))
        address = self.pick_changing(width)
        if self.chance.randrange(2):
            mask = last if memory.depth == 2**least else 2 ** (least - 1) - 1
            return self.under_a_sign("&", address, self.constant(width, mask))
        depth = self.constant(width, memory.depth)
        below = self.assign(self.wire(1), "<", f"{address.name} < {depth.name}", [address, depth])
        return self.assign(self.wire(width), *self.chosen(below, address, self.constant(width, 0)))

    def address_past(self, memory):
        """An address that may pass the depth: any, or few bits below copies of one, by which alone it may pass far."""
        least = max(1, (memory.depth - 1).bit_length())
        if self.chance.randrange(2):
            return self.pick_changing(self.chance.choice([least + 1, least + 2, WIDEST_PAST_DEPTH]))
        copies = WIDEST_PAST_DEPTH - least
        high = self.assign(self.wire(copies), *self.repeated(self.pick_changing(1), copies))
        return self.assign(self.wire(WIDEST_PAST_DEPTH), *self.joined_bits(high, self.pick_changing(least)))

    # Instances.

    def add_part(self, module):
        part = Part(self.fresh_name(), module, {"clk": self.by_name["clk"]})
        self.parts.append(part)
        self.forms["instance"] += 1
        self.forms[f"instances nested {module.levels + 1} deep"] += 1
        return part

    def join_output(self, part, port):
        """Joins an output of an instance, once the inputs that have a part in it are joined."""
        feeding = [self.join_input(part, net, port.ways) for _, net in part.module.ports if net.name in port.inputs]
        fitting = [net for net in self.free_outputs if net.width == port.width]
        if fitting:
            target = self.chance.choice(fitting)
            self.free_outputs.remove(target)
            self.forms["output port joined to an instance"] += 1
        else:
            target = self.wire(port.width)
        target.ways = port.ways * max([net.ways for net in feeding], default=1)
        target.inputs = frozenset().union(*[net.inputs for net in feeding])
        target.parts = frozenset([part.name]).union(*[net.parts for net in feeding])
        part.joined[port.name] = target
        self.nets.append(target)
        self.shown.append(target)

    def join_input(self, part, port, ways=1):
        """The net that an input of an instance is joined to, from which so many ways lead to an output."""
        if port.name not in part.joined:
            is_reset = port.name == "reset" and self.chance.randrange(8)
            net = self.by_name["reset"] if is_reset else self.pick(port.width, max(1, MOST_WAYS // max(1, ways)))
            part.joined[port.name] = self.read(net)
        return part.joined[port.name]

    def join_late_inputs(self, part):
        """Joins the inputs that have a part in no output, many of them to what hangs on the outputs."""
        for way, port in part.module.ports:
            if way == "output" or port.name in part.joined:
                continue
            own = [net for net in self.readable() if part.name in net.parts]
            if port.name != "reset" and own and self.chance.randrange(4):
                part.joined[port.name] = self.read(self.fitted(self.choose(own), port.width))
            if part.name in self.join_input(part, port).parts:
                self.forms["input that hangs on an output of its instance"] += 1

    def write_part(self, part):
        ports = [f".{net.name}({part.joined[net.name].name})" for _, net in part.module.ports]
        self.chance.shuffle(ports)
        self.statements.append(f"{part.module.name} {part.name} ({', '.join(ports)});")

    # Updates.

    def enable(self):
        return self.pick_changing(1) if self.chance.randrange(3) else self.constant(1, 1)

    def update(self, target, enable, value):
        self.updates.append(f"if ({self.read(enable).name}) {target} <= {self.read(value).name};")

    def write_register(self, register):
        """Updates a register, often by another one; half of the others are set to a word in a reset edge."""
        others = [net for net in self.registers if net.width == register.width and net is not register]
        if others and self.chance.randrange(2):
            self.forms["register that takes a register's word"] += 1
            self.update(register.name, self.enable(), self.chance.choice(others))
            return
        enable, value = self.enable(), self.pick_changing(register.width)
        if self.chance.randrange(2):
            enable, value = self.set_by_reset(enable, value, self.constant(register.width))
        self.update(register.name, enable, value)

    def set_by_reset(self, enable, value, word):
        """An enable and a value that are 1 and the word where reset is 1, else those that are given."""
        self.forms["register set by reset"] += 1
        reset = self.by_name["reset"]
        enable = self.under_a_sign("|", enable, reset)
        return enable, self.assign(self.wire(value.width), *self.chosen(reset, word, value))

    def write_memory(self, memory):
        if self.chance.randrange(5) == 0:
            self.forms["memory without an update"] += 1
            return
        may_pass = self.chance.randrange(3) == 0
        address = self.address_past(memory) if may_pass else self.address(memory)
        self.forms["memory update that may pass the depth"] += may_pass
        self.forms["memory update"] += 1
        self.update(f"{memory.name}[{self.read(address).name}]", self.enable(), self.pick_changing(memory.width))

    # The whole.

    def fill(self, wires, modules):
        """Adds wires, reads of memories and instances in a mixed order, then joins what is left of the instances."""
        tasks = [self.add_wire for _ in range(wires)]
        tasks += [functools.partial(self.add_word, memory) for memory in self.memories]
        for module in modules:
            part = self.add_part(module)
            tasks += [functools.partial(self.join_output, part, net) for way, net in module.ports if way == "output"]
        self.chance.shuffle(tasks)
        for task in tasks:
            task()
        for part in self.parts:
            self.join_late_inputs(part)
            self.write_part(part)

    def add_wire(self):
        """Adds a wire of a random form, and of a width that this form can have."""
        form = self.chance.choice([form for form in EXPRESSIONS if form != "m[a]" or self.memories])
        least = 2 if form == "{a, b}" else 1
        width = 1 if form in ("==", "<") else max(least, random_width(self.chance))
        if form == "m[a]":
            width = self.chance.choice(self.memories).width
        self.shown.append(self.assign(self.wire(width), *self.expression_of(form, width)))

    def add_word(self, memory):
        self.shown.append(self.assign(self.wire(memory.width), *self.word_of(memory)))

    def write_storage(self):
        for register in self.registers:
            self.write_register(register)
        for memory in self.memories:
            self.write_memory(memory)

    def drive_free_outputs(self):
        """Assigns the outputs that are joined to no instance: a third of them a register."""
        for output in self.free_outputs:
            register = self.chance.randrange(3) == 0
            self.assign(output, *(self.the_net(self.add_register(output.width)) if register else self.expression(output.width)))

    def drive_by_all(self, output):
        """Assigns the output a register in which the inputs, the registers and what `fill` added have a part with all their
        bits, and each net that nothing else reads, once all is there."""
        inputs = [net for way, net in self.ports if way == "input" and net.name != "clk"]
        unread = [net for net in self.nets if net.reads == 0 and net not in self.by_name.values()]
        shown = dict.fromkeys(inputs + self.registers + self.counters + self.shown + unread)
        register = self.held(output.width)
        self.assign(output, *self.the_net(register))
        layer = [word for net in shown for word in self.in_words(net, output.width)]
        while len(layer) > 1:
            pairs = list(zip(layer[0::2], layer[1::2]))
            layer = [self.under_a_sign(self.chance.choice("^^+-"), *pair) for pair in pairs] + layer[2 * len(pairs) :]
        self.update(register.name, self.constant(1, 1), layer[0])

    def in_words(self, net, width):
        """Nets of this width in which all bits of the net stand."""
        if net.width <= width:
            return [self.fitted(net, width)]
        lows = [*range(0, net.width - width, width), net.width - width]
        return [self.assign(self.wire(width), *self.part_of(net, width, low)) for low in lows]

    def blocks(self):
        """The updates, in one block or several; some modules have an empty block besides."""
        blocks = [[] for _ in range(self.chance.choice([1, 1, 2, 3]))]
        for update in self.updates:
            self.chance.choice(blocks).append(update)
        if self.chance.randrange(4) == 0:
            blocks.append([])
        self.forms["several update blocks"] += len(blocks) > 1
        self.forms["empty update block"] += [] in blocks
        return ["\n".join(["always @(posedge clk) begin", *block, "end"]) for block in blocks]

    def module(self):
        """The module with its text: all declarations first, or each before its first use; the rest in a mixed order."""
        statements = self.statements + self.blocks()
        self.chance.shuffle(statements)
        left, items = dict(self.declarations), []
        if self.chance.randrange(2):
            items, left = list(left.values()), {}
        for statement in statements:
            items += [left.pop(name) for name in NAME.findall(statement) if name in left]
            items.append(statement)
        gaps = ["\n"] * 12 + [" ", "\n\n", " // a note\n", "\n/* a note\nof two lines */"]
        body = "".join(item + self.chance.choice(gaps) for item in items)
        head = ",\n".join(f"{way} wire [{net.width - 1}:0] {net.name}" for way, net in self.ports)
        levels = max([part.module.levels + 1 for part in self.parts], default=0)
        return Module(self.name, self.ports, f"module {self.name} (\n{head});\n{body}endmodule\n", self.forms, levels)
