"""Random kernels of all kinds of nodes, for bench/random_kernels.py."""
import random
from dataclasses import dataclass, field

from module_maker import WIDEST_BY_ONE
from stream_rules import BIT, Broken, Type, cast_of, int_, least_bits, literal_bits, takes, uint

WIDTHS = [1, 2, 3, 4, 7, 8, 8, 9, 16, 16, 31, 32, 32, 33, 63, 64, 65, 100, 127, 128]
MODES = ["TRUNCATE", "TONEAR", "TONEAREVEN"]
OPERATIONS = ["add", "sub", "mul", "div", "neg", "and", "or", "xor", "not", "eq", "ne", "lt", "le", "gt", "ge", "mux", "round"]
JOINING = {"+": "add", "-": "sub", "*": "mul", "/": "div", "&": "and", "|": "or", "^": "xor"}
COMPARING = {"===": "eq", "!==": "ne", "<": "lt", "<=": "le", ">": "gt", ">=": "ge"}
LONGEST_DECIMAL = 25
CHAIN_BITS = 128  # of all counters of a chain
LONG = 40  # bits of a counter that doesn't begin again


def any_type():
    width = random.choice(WIDTHS)
    form = random.random()
    if form < 0.4:
        return uint(width)
    if form < 0.65:
        return int_(width)
    if form < 0.75:
        return BIT
    frac = random.choice([0, width // 2, width, random.randrange(width + 1)])
    return Type("fix", width - frac, frac, random.random() < 0.6)


def type_text(of):
    if of.kind == "bool":
        return "dfeBool()"
    if of.kind == "fix":
        return f"dfeFix({of.whole}, {of.frac}, SignMode.{'TWOSCOMPLEMENT' if of.signed else 'UNSIGNED'})"
    return f"dfe{'UInt' if of.kind == 'uint' else 'Int'}({of.width})"


def any_numerator(of):
    """The numerator of a value of a type, often one at its ends."""
    low, high = (-(2 ** (of.width - 1)), 2 ** (of.width - 1) - 1) if of.signed else (0, 2**of.width - 1)
    near = [number for number in (0, 1, 1, 2, 3, 5, -1) if low <= number <= high]
    return random.choice([low, high, random.randint(low, high), random.randint(low, high), *near])


def literal(of):
    """A number that is one of the type's, for where it stands beside a stream."""
    numerator = any_numerator(of)
    digits = min(of.frac, random.randrange(8))
    number = numerator * 10**digits // 2**of.frac
    try:
        literal_bits("TRUNCATE", number, digits, of)
        literal_bits("TONEAR", number, digits, of)
    except Broken:
        number, digits = 0, 0
    text = str(abs(number)).rjust(digits + 1, "0")
    if digits:
        text = f"{text[:-digits]}.{text[-digits:]}"
    if len(text) > LONGEST_DECIMAL and digits:
        text = text.split(".")[0]
    elif digits == 0 and random.random() < 0.1:
        text = hex(abs(number))
    return f"(-{text})" if number < 0 else text


def any_table():
    """A latency table: all latencies 0, or some of them by width; at times an operation is missing."""
    form = random.random()
    most = 0 if form < 0.2 else random.choice([1, 3, 3, 7]) if form < 0.95 else 64
    table = {}
    for op in OPERATIONS:
        froms = sorted({1, *random.sample(range(2, 129), random.randrange(3))})
        table[op] = [[least, random.randint(0, most)] for least in froms]
    if random.random() < 0.1:
        del table[random.choice(OPERATIONS)]
    return table


@dataclass(frozen=True)
class Variable:
    name: str
    of: Type


@dataclass
class Loop:
    """A feed, and the number of ticks that it looks back, which is set when the kernel is written."""

    feed: str
    value: str = None
    back: int = 1

    def text(self):
        value = self.value if self.back == 0 else f"stream.offset({self.value}, {-self.back})"
        return f"{self.feed} <== {value};"


@dataclass
class Begun:
    """A bit that is 1 from the tick on to which a loop looks back from the first one."""

    name: str
    counter: str
    loop: Loop

    def text(self):
        return f"DFEVar {self.name} = {self.counter} >= {max(0, self.loop.back)};"


@dataclass
class Chain:
    name: str
    bits: int = 0


@dataclass
class Maker:
    """A kernel in the making: its statements, its variables, and the ports with their types. Without counts it has no counters,
    chains, holds, scalars and controls."""

    has_counts: bool = True
    statements: list = field(default_factory=list)
    variables: list = field(default_factory=list)
    defined: list = field(default_factory=list)  # variables that are mostly so in each tick
    inputs: dict = field(default_factory=dict)
    outputs: dict = field(default_factory=dict)
    scalars: dict = field(default_factory=dict)
    chains: list = field(default_factory=list)
    loops: list = field(default_factory=list)
    pool: list = field(default_factory=lambda: [any_type() for _ in range(random.choice([1, 2, 2, 3, 4]))])
    count: int = 0
    divides_wide: bool = False  # whether there is a quotient of words that Icarus can't divide by 1

    def fresh(self, letter="v"):
        self.count += 1
        return f"{letter}{self.count}"

    def type(self):
        return random.choice(self.pool) if random.random() < 0.85 else any_type()

    # statements

    def declare(self, text, of, letter="v"):
        """A variable of a stream that is made by this expression."""
        variable = Variable(self.fresh(letter), of)
        self.statements.append(f"DFEVar {variable.name} = {text};")
        self.variables.append(variable)
        return variable

    def input(self, of, control):
        """An input, with the last argument of its call where it has a control."""
        name = random.choice([f"x{len(self.inputs)}", f"in_{len(self.inputs)}", f"A{len(self.inputs)}"])
        self.inputs[name] = of
        variable = self.declare(f'io.input("{name}", {type_text(of)}{control})', of, "x")
        if not control:
            self.defined.append(variable)
        return variable

    def output(self, variable):
        control = self.control(0.4)
        names = [f"y{len(self.outputs)}"] + [name for name in (*self.inputs, *self.scalars) if name not in self.outputs]
        name = random.choice(names) if random.random() < 0.2 else names[0]
        self.outputs[name] = variable.of
        self.statements.append(f'io.output("{name}", {variable.name}, {type_text(variable.of)}{control});')

    def scalar(self, of):
        names = [f"s{len(self.scalars)}"] + [name for name in self.inputs if name not in self.scalars]
        name = random.choice(names) if random.random() < 0.2 else names[0]
        self.scalars[name] = of
        self.defined.append(self.declare(f'io.scalarInput("{name}", {type_text(of)})', of, "s"))

    def counter(self, bits=None):
        """A counter of its own, which mostly begins again soon."""
        bits = bits or random.choice([1, 2, 2, 3, 3, 4, random.choice(WIDTHS)])
        most = random.choice([1, 2, 3, 2**bits, 2**bits - 1, random.randint(1, 2**bits)])
        more = f", {most}" if 1 <= most <= min(2**bits, 2**31 - 1) and bits != LONG and random.random() < 0.5 else ""
        variable = self.declare(f"control.count.simpleCounter({bits}{more})", uint(bits), "c")
        self.defined.append(variable)
        return variable

    def chain_counter(self):
        """A further counter of a chain, or the first one of a new chain."""
        chain = random.choice(self.chains) if self.chains and random.random() < 0.75 else None
        most = random.choice([1, 2, 2, 3, 3, 4, 5, 7, 8, 12, 100, 2**31 - 1])
        step = random.choice([1, 1, 1, 2, 3, 5, most, 2**31 - 1])
        bits = least_bits(most - 1)
        if chain is None or chain.bits + bits > CHAIN_BITS:
            chain = Chain(self.fresh("h"))
            self.chains.append(chain)
            self.statements.append(f"CounterChain {chain.name} = control.count.makeCounterChain();")
        chain.bits += bits
        variable = self.declare(f"{chain.name}.addCounter({most}, {step})", uint(bits), "c")
        self.defined.append(variable)
        return variable

    def any_counter(self):
        return random.choice([self.counter, self.chain_counter])()

    def hold(self):
        value, store = self.any(), self.steady_bit() if random.random() < 0.9 else self.bit()
        variable = self.declare(f"Reductions.streamHold({value.name}, {store})", value.of)
        if value in self.defined and any(store == known.name for known in self.defined):
            self.defined.append(variable)
        return variable

    def rounded(self, text, of):
        """A variable whose operation has a rounding mode."""
        mode = random.choice(MODES + [None])
        if mode is None:
            return self.declare(text, of)
        self.statements.append(f"optimization.pushRoundingMode(RoundingMode.{mode});")
        variable = self.declare(text, of)
        self.statements.append("optimization.popRoundingMode();")
        return variable

    # operands

    def any(self):
        """A variable, mostly one of the last ones; of a kernel that has none, a constant."""
        if not self.variables:
            return self.constant(self.type())
        return random.choice(self.variables[-random.choice([1, 3, 8, len(self.variables)]) :])

    def some(self, of):
        """A variable of a type: one that is there, one that is cast, or a constant."""
        known = [variable for variable in self.variables if variable.of == of]
        if known and random.random() < 0.9:
            return random.choice(known[-random.choice([2, 5, len(known)]) :])
        other = self.any()
        return self.cast(other, of) or self.constant(of)

    def constant(self, of):
        return self.declare(f"constant.var({type_text(of)}, {literal(of)})", of, "k")

    def cast(self, variable, of):
        try:
            cast_of(variable.of, of)
        except Broken:
            return None
        return self.rounded(f"{variable.name}.cast({type_text(of)})", of)

    def beside(self, of):
        """A second operand: a variable or a number."""
        return literal(of) if random.random() < 0.2 else self.some(of).name

    def bit(self):
        """The name of a variable of one bit that may choose."""
        known = [variable for variable in self.variables if variable.of.is_control]
        if known and random.random() < 0.6:
            return random.choice(known).name
        return self.comparison().name

    def steady_bit(self):
        """The name of a variable of one bit that is mostly defined in each tick."""
        known = [variable for variable in self.defined if variable.of.is_control]
        if known and random.random() < 0.5:
            return random.choice(known).name
        counts = [variable for variable in self.defined if variable.name[0] in "cs"]
        near = counts if random.random() < 0.5 else self.defined
        a = random.choice(near) if near and random.random() < 0.7 else self.any_counter()
        others = [variable.name for variable in self.defined if variable.of == a.of]
        b = random.choice(others) if random.random() < 0.2 else literal(a.of)
        sign = random.choice([sign for sign, op in COMPARING.items() if takes(op, a.of)])
        self.defined.append(self.declare(f"{a.name} {sign} {b}", BIT))
        return self.defined[-1].name

    def control(self, share):
        """The last argument of a port that has a control in so many of the cases, mostly one that is defined in each tick."""
        if not self.has_counts or random.random() >= share:
            return ""
        return f", {self.steady_bit() if random.random() < 0.95 else self.bit()}"

    # the forms of operations

    def joined(self):
        a = self.any()
        signs = [sign for sign, op in JOINING.items() if takes(op, a.of) and not (op == "mul" and a.of.kind == "fix" and a.of.width > 64)]
        if not signs:
            return self.comparison()
        sign = random.choice([sign for sign in signs if sign != "/" or random.random() < 0.5] or signs)
        b = self.beside(a.of)
        self.divides_wide |= sign == "/" and a.of.width > WIDEST_BY_ONE
        if sign == "/" and random.random() < 0.7:
            b = f"({self.some(a.of).name} | {1 if a.of.has(1) else '(-1)'})"
        left, right = (a.name, b) if random.random() < 0.7 or sign == "/" else (b, a.name)
        return self.rounded(f"{left} {sign} {right}", a.of)

    def comparison(self):
        a = self.any()
        sign = random.choice([sign for sign, op in COMPARING.items() if takes(op, a.of)])
        return self.declare(f"{a.name} {sign} {self.beside(a.of)}", BIT)

    def single(self):
        a = self.any()
        forms = [f"{sign}{a.name}" for sign, op in (("-", "neg"), ("~", "not")) if takes(op, a.of)]
        if takes("shl", a.of):
            amount = random.choice([0, 1, 2, a.of.width - 1, random.randrange(128)])
            forms += [f"{a.name} << {amount}", f"{a.name} >> {amount}"]
        if not forms:
            return self.casted()
        return self.declare(random.choice(forms), a.of)

    def casted(self):
        return self.cast(self.any(), self.type()) or self.offset()

    def chosen(self):
        a = self.any()
        one, other = random.sample([a.name, self.beside(a.of)], 2)
        return self.declare(f"{self.bit()} ? {one} : {other}", a.of)

    def multiplexer(self):
        a = self.any()
        width = random.choice([1, 1, 2, 2, 3, 4])
        most = 2**width if random.random() < 0.7 else random.randint(2, 2**width)
        options = [a.name] + [self.beside(a.of) for _ in range(most - 1)]
        random.shuffle(options)
        selector = self.some(uint(width)) if random.random() < 0.6 else self.some(uint(8))
        return self.declare(f"control.mux({selector.name}, {', '.join(options)})", a.of)

    def offset(self):
        form = random.random()
        most = 4 if form < 0.75 else 40 if form < 0.97 else 200
        a = self.any()
        return self.declare(f"stream.offset({a.name}, {random.randint(-most, most)})", a.of)

    def operation(self):
        forms = [self.joined] * 5 + [self.comparison, self.single, self.casted, self.chosen, self.multiplexer, self.offset, self.offset]
        if self.has_counts:
            forms += [self.hold, self.hold, self.any_counter]
        return random.choice(forms)()

    # loops

    def loop(self, length):
        """A feed, operations that read it where a bit is 1, and its connection to one of their streams, some ticks back."""
        of = self.type()
        feed = Variable(self.fresh("f"), of)
        loop = Loop(feed.name)
        self.statements.append(f"DFEVar {feed.name} = {type_text(of)}.newInstance(this);")
        begin = self.some(of)
        kept = self.declare(f"{self.begun(loop)} ? {feed.name} : {begin.name}", of) if random.random() < 0.9 else feed
        if random.random() < 0.2:
            self.variables.append(feed)
        if random.random() < 0.1:
            self.variables.append(kept)
        if begin in self.defined:
            self.defined.append(kept)
        other = self.read_by(kept) if self.has_counts and random.random() < 0.4 else None
        for _ in range(random.randrange(length)):
            self.operation()
        last = kept
        if random.random() < 0.9:
            signs = [sign for sign in "+-&|^" if takes(JOINING[sign], of)] or ["==="]
            text = f"{kept.name} {random.choice(signs)} {other or self.beside(of)}"
            last = self.declare(text if "===" not in text else kept.name, of)
        if self.has_counts and random.random() < 0.3:
            last = self.declare(f"Reductions.streamHold({last.name}, {self.steady_bit()})", of)
        loop.value, loop.back = last.name, random.choice([-1, 0, 1, 1, 2, 3])
        self.loops.append(loop)
        self.statements.append(loop)

    def read_by(self, kept):
        """An input that is read where a word of a loop says so, and is held: the name of what is held, where it is of the loop's
        type, as it mostly is."""
        sign = random.choice([sign for sign, op in COMPARING.items() if takes(op, kept.of)])
        bit = self.declare(f"{kept.name} {sign} {literal(kept.of)}", BIT)
        word = self.input(kept.of if random.random() < 0.8 else self.type(), f", {bit.name}")
        held = self.declare(f"Reductions.streamHold({word.name}, {bit.name})", word.of)
        return held.name if held.of == kept.of else None

    def begun(self, loop):
        """The name of a bit for a loop: often one that is 1 once the loop looks back to a tick of the run."""
        if not self.has_counts or random.random() < 0.3:
            return self.bit()
        bit = self.fresh("b")
        self.statements.append(Begun(bit, self.counter(LONG).name, loop))
        return bit

    # the kernel

    def fill(self, length):
        """Inputs, operations and loops, and outputs of some variables."""
        for _ in range(random.choice([1, 1, 2, 2, 3, 4]) if random.random() < 0.95 else 0):
            self.input(self.type(), self.control(0.25))
        for _ in range(random.choice([0, 0, 0, 1, 2]) if self.has_counts else 0):
            self.scalar(self.type())
        for _ in range(length):
            form = random.random()
            if form < 0.08 and len(self.loops) < 3:
                self.loop(6)
            elif form < 0.1:
                self.constant(self.type())
            elif form < 0.12:
                self.input(self.type(), self.control(0.6))
            else:
                self.operation()
        self.connect_out()

    def connect_out(self):
        count = random.choice([1, 1, 2, 2, 3, 4]) if random.random() < 0.95 else 0
        count = min(count, len(self.variables))
        last = self.variables[-max(count, 6) :]
        for variable in random.sample(last if random.random() < 0.8 else self.variables, count):
            self.output(variable)

    def source(self, name):
        lines = []
        for part in self.statements:
            lines.append(f"    {part if isinstance(part, str) else part.text()}\n")
        return f"class {name} extends Kernel {{\n  {name}(KernelParameters p) {{\n    super(p);\n{''.join(lines)}  }}\n}}\n"


def any_kernel():
    maker = Maker(random.random() < 0.8)
    maker.fill(random.choice([1, 3, 6, 10, 15, 20, 30]))
    return maker
