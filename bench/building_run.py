"""What the constructors of a source do, by docs/LANGUAGE.md alone: the calls of its kernels, or the line of its refusal.

This is written from that page, and not from the program: bench/random_programs.py compares the two.
"""
import re
import sys
from dataclasses import dataclass, field

from kernel_library import KERNEL_CALLS, KERNEL_METHODS, choose, connect, operator, prefix
from manager_library import MANAGER_CALLS, MANAGER_METHODS, add_kernel, join
from running import declared_by, ENGINE, NOTHING, PARAMETERS, Array, Link, Literal, Refusal, Stream, TYPE_CALLS, declared_of
from source_tree import classes_of

sys.setrecursionlimit(200_000)

STEPS = 1_000_000
DEEPEST = 64
MOST_ELEMENTS = 65_536
MOST_BYTES = 64
MOST_NODES = 4_096
ROOTS = {"io", "stream", "constant", "control", "Reductions", "optimization", "SignMode", "RoundingMode"}
PORT_NAME = re.compile(r"[A-Za-z][A-Za-z0-9_]*")
SIGNS = {"SignMode.TWOSCOMPLEMENT": True, "SignMode.UNSIGNED": False}
MODES = {"RoundingMode.TRUNCATE": "TRUNCATE", "RoundingMode.TONEAR": "TONEAR", "RoundingMode.TONEAREVEN": "TONEAREVEN"}


@dataclass
class Variable:
    declared: tuple
    value: object = NOTHING


@dataclass
class Frame:
    """A running method or constructor: its variables, the type that it is to give, and how deep it stands."""

    wanted: tuple = None
    depth: int = 0
    variables: dict = field(default_factory=dict)

    def leave(self, count):
        while len(self.variables) > count:
            self.variables.popitem()


@dataclass
class Returned:
    value: object


class Run:
    """The run of a class with the arguments of its constructor. A manager's run knows the classes of kernels."""

    def __init__(self, class_, kernel_classes=None):
        self.members = class_.members
        self.is_manager = class_.manager
        self.kernel_classes = kernel_classes or {}
        self.left = STEPS
        self.calls, self.nodes = [], 0
        self.modes, self.chain_bits = [], {}
        self.kernels, self.from_cpu, self.to_cpu, self.joins = [], [], [], []
        self.fields, self.frame = {}, Frame()
        self.methods = {}
        for member in self.members:
            if member.kind == "Method":
                self.methods.setdefault(member.word, member)

    # the whole run

    def run(self, arguments):
        ctor = next(member for member in self.members if member.kind == "Ctor")
        params, block = ctor.parts[:-1], ctor.parts[-1]
        arguments = [ENGINE if self.is_manager else PARAMETERS, *arguments]
        if len(params) != len(arguments):
            raise Refusal("E1", ctor.place)
        variables = self.bound(params, arguments, ctor.place)
        fields = [
            (member, Variable(self.known_type(member.parts[0]))) for member in self.members if member.kind == "Field"
        ]
        self.fields = {member.word: variable for member, variable in fields}
        for member, variable in fields:
            self.initial(declared_of(member.parts[0]), variable, member.parts[1:], member.place)
        self.frame = Frame(variables=variables)
        self.statements(block.parts)

    def known_type(self, type_):
        try:
            return declared_of(type_)
        except Refusal:
            return None

    def bound(self, params, arguments, place):
        """The variables of a method or constructor."""
        variables = {}
        for param, argument in zip(params, arguments):
            declared = declared_of(param.parts[0])
            if param.word in variables:
                raise Refusal("E15", param.place)
            self.fits(declared, argument, place)
            variables[param.word] = Variable(declared, argument)
        return variables

    # what all parts of a run use

    def step(self, count=1):
        if self.left < count:
            raise Refusal("E7")
        self.left -= count

    def make(self, call, of, is_feed=False):
        """The stream of a new node."""
        self.calls.append(call)
        self.nodes += 1
        return Stream(self.nodes - 1, of, is_feed)

    @property
    def mode(self):
        return self.modes[-1] if self.modes else "TONEAREVEN"

    def there(self, value, place):
        if value is NOTHING:
            raise Refusal("E6", place)
        return value

    def fits(self, declared, value, place):
        if declared is None or declared_by(value) != declared:
            raise Refusal("E2", place)
        return value

    def port_name(self, name, place):
        if not PORT_NAME.fullmatch(name):
            raise Refusal("E11", place)

    def text(self, value, place):
        if len(value) > MOST_BYTES:
            raise Refusal("E10", place)
        return value

    def is_true(self, value, place):
        """The value of a condition of the host."""
        if type(self.there(value, place)) is not bool:
            raise Refusal("E2", place)
        return value

    def variable(self, name):
        return self.frame.variables.get(name) or self.fields.get(name)

    def path(self, node):
        """The path that an expression is, or None."""
        if node.kind == "Name":
            return None if node.word in ("true", "false", "this") or self.variable(node.word) else node.word
        if node.kind == "Dot":
            base = self.path(node.parts[0])
            return base and f"{base}.{node.word}"
        return None

    def root(self, node):
        while node.kind == "Dot":
            node = node.parts[0]
        return node

    # statements: each gives None, or what leaves the method

    def statements(self, nodes):
        count = len(self.frame.variables)
        for node in nodes:
            left = self.statement(node)
            if left:
                return left
        self.frame.leave(count)
        return None

    def statement(self, node):
        self.step()
        return getattr(self, "do_" + node.kind.lower())(node)

    def do_empty(self, node):
        return None

    def do_block(self, node):
        return self.statements(node.parts)

    def do_local(self, node):
        declared = declared_of(node.parts[0])
        if node.word in self.frame.variables:
            raise Refusal("E15", node.place)
        self.frame.variables[node.word] = Variable(declared)
        self.initial(declared, self.frame.variables[node.word], node.parts[1:], node.place)

    def initial(self, declared, variable, parts, place):
        for init in parts:
            if init.kind == "Braces":
                variable.value = self.braces(declared, init)
            else:
                value = self.there(self.evaluate(init), place)
                variable.value = self.fits(declared, value, place)

    def braces(self, declared, node):
        base, rank = declared
        if rank == 0:
            raise Refusal("E2", node.place)
        if len(node.parts) > MOST_ELEMENTS:
            raise Refusal("E4", node.place)
        self.step(len(node.parts))
        of, items = (base, rank - 1), []
        for part in node.parts:
            if part.kind == "Braces":
                items.append(self.braces(of, part))
            else:
                items.append(self.fits(of, self.there(self.evaluate(part), node.place), node.place))
        return Array(of, items)

    def do_set(self, node):
        read, write = self.place_of(node.parts[0], node.place)
        old = None if node.word == "=" else self.there(read(), node.place)
        if node.word in ("++", "--"):
            if type(old) is not int:
                raise Refusal("E2", node.place)
            value = operator(self, node.word[0], node.place, old, 1)
        else:
            value = self.there(self.evaluate(node.parts[1]), node.place)
            if node.word != "=":
                value = operator(self, node.word[0], node.place, old, value)
        write(value)

    def place_of(self, node, user):
        """How the place on the left of an assignment is read and set."""
        if node.kind == "Name":
            variable = self.variable(node.word)
            if not variable:
                raise Refusal("E1", node.place)

            def write(value):
                variable.value = self.fits(variable.declared, value, user)

            return lambda: variable.value, write
        array = self.there(self.place_of(node.parts[0], user)[0](), user)
        index = self.there(self.evaluate(node.parts[1]), user)
        if not isinstance(array, Array) or type(index) is not int:
            raise Refusal("E2", user)
        if not 0 <= index < len(array.items):
            raise Refusal("E4", user)

        def write_element(value):
            array.items[index] = self.fits(array.of, value, user)

        return lambda: array.items[index], write_element

    def do_connect(self, node):
        left, right = [self.there(self.evaluate(part), node.place) for part in node.parts]
        (join if isinstance(left, Link) else connect)(self, node.place, left, right)

    def do_run(self, node):
        self.evaluate(node.parts[0])

    def do_return(self, node):
        if not node.parts:
            return Returned(NOTHING)
        value = self.there(self.evaluate(node.parts[0]), node.place)
        return Returned(self.fits(self.frame.wanted, value, node.place))

    def do_if(self, node):
        parts = node.parts
        for k in range(0, len(parts) - 1, 2):
            if self.is_true(self.evaluate(parts[k]), node.place):
                return self.statement(parts[k + 1])
        return self.statement(parts[-1]) if len(parts) % 2 else None

    def do_while(self, node):
        while self.is_true(self.evaluate(node.parts[0]), node.place):
            left = self.statement(node.parts[1])
            if left:
                return left
        return None

    def do_for(self, node):
        first, condition, step, body = node.parts
        count = len(self.frame.variables)
        if first:
            self.statement(first)
        while condition is None or self.is_true(self.evaluate(condition), node.place):
            left = self.statement(body)
            if left:
                return left
            if step:
                self.statement(step)
        self.frame.leave(count)
        return None

    # expressions

    def evaluate(self, node):
        if node.kind == "Name" and node.word == "this":
            raise Refusal("E1", node.place)
        if self.path(node):
            root = self.root(node)
            raise Refusal("E1", node.place if root.word in ROOTS else root.place)
        self.step()
        return getattr(self, "on_" + node.kind.lower())(node)

    def operands(self, nodes, place):
        return [self.there(self.evaluate(node), place) for node in nodes]

    def on_whole(self, node):
        digits = node.word.rstrip("Ll")
        number = int(digits, 16) if digits.startswith("0x") else int(digits)
        return Literal(number, 0) if digits != node.word or number >= 2**31 else number

    def on_decimal(self, node):
        before, behind = node.word.split(".")
        return Literal(int(before + behind), len(behind))

    def on_string(self, node):
        return self.text(node.word[1:-1], node.place)

    def on_name(self, node):
        if node.word in ("true", "false"):
            return node.word == "true"
        return self.there(self.variable(node.word).value, node.place)

    def on_prefix(self, node):
        inner = node.parts[0]
        value = self.operands(node.parts, node.place)[0]
        if node.word == "-" and inner.kind == "Whole" and inner.word == "2147483648":
            return -(2**31)
        return prefix(self, node.word, node.place, value)

    def on_binary(self, node):
        if node.word in ("&&", "||"):
            first = self.is_true(self.evaluate(node.parts[0]), node.place)
            decides = first == (node.word == "||")
            return first if decides else self.is_true(self.evaluate(node.parts[1]), node.place)
        left, right = self.operands(node.parts, node.place)
        return operator(self, node.word, node.place, left, right)

    def on_cond(self, node):
        test = self.there(self.evaluate(node.parts[0]), node.place)
        if isinstance(test, Stream):
            first, second = self.operands(node.parts[1:], node.place)
            return choose(self, node.place, test, first, second)
        chosen = node.parts[1 if self.is_true(test, node.place) else 2]
        value = self.there(self.evaluate(chosen), node.place)
        if isinstance(value, Literal):
            raise Refusal("E2", node.place)
        return value

    def on_index(self, node):
        array, index = self.operands(node.parts, node.place)
        if not isinstance(array, Array) or type(index) is not int:
            raise Refusal("E2", node.place)
        if not 0 <= index < len(array.items):
            raise Refusal("E4", node.place)
        return self.there(array.items[index], node.place)

    def on_dot(self, node):
        if node.word != "length":
            raise Refusal("E1", node.place)
        array = self.operands(node.parts, node.place)[0]
        if not isinstance(array, Array):
            raise Refusal("E2", node.place)
        return len(array.items)

    def on_new(self, node):
        raise Refusal("E1", node.place)

    def on_newarray(self, node):
        base, _ = declared_of(node.parts[0])
        sizes = self.operands(node.parts[1:], node.place)
        if any(type(size) is not int for size in sizes):
            raise Refusal("E2", node.place)
        if any(not 0 <= size <= MOST_ELEMENTS for size in sizes):
            raise Refusal("E4", node.place)
        elements, arrays = 0, 1
        for size in sizes:
            arrays *= size
            elements += arrays
        self.step(elements)
        return self.new_array(base, sizes)

    def new_array(self, base, sizes):
        of = (base, len(sizes) - 1)
        if len(sizes) == 1:
            return Array(of, [NOTHING] * sizes[0])
        return Array(of, [self.new_array(base, sizes[1:]) for _ in range(sizes[0])])

    # calls

    def on_call(self, node):
        method = self.methods.get(node.word)
        if method:
            return self.call_method(method, node)
        if self.is_manager and node.word == "addKernel":
            return add_kernel(self, node)
        if self.is_manager and node.word in MANAGER_CALLS:
            return self.call_library(MANAGER_CALLS[node.word], node, node.parts)
        if node.word in TYPE_CALLS:
            return self.call_library(TYPE_CALLS[node.word], node, node.parts)
        raise Refusal("E1", node.place)

    def on_dotcall(self, node):
        path = self.path(node.parts[0])
        if not path:
            methods = MANAGER_METHODS if self.is_manager else KERNEL_METHODS
            if node.word not in methods:
                raise Refusal("E1", node.place)
            return self.call_library(methods[node.word], node, node.parts)
        root = self.root(node.parts[0])
        if root.word not in ROOTS:
            raise Refusal("E1", root.place)
        path = f"{path}.{node.word}"
        if self.is_manager or path not in KERNEL_CALLS:
            raise Refusal("E1", node.place)
        return self.call_library(KERNEL_CALLS[path], node, node.parts[1:])

    def call_library(self, entry, node, arguments):
        """A call of the library: `entry` says how many arguments it takes (with the value before the dot), which of them is a
        sign, a mode or `this`, and what is done."""
        if len(arguments) not in entry.counts:
            raise Refusal("E1", node.place)
        special = self.special(entry, arguments)
        if entry.special and special is None:
            self.operands(arguments, node.place)
            raise Refusal("E2", node.place)
        plain = [part for k, part in enumerate(arguments) if not entry.special or k != entry.special[0]]
        values = self.operands(plain, node.place)
        return entry.done(self, node.place, *values, *([special] if entry.special else []))

    def special(self, entry, arguments):
        if not entry.special:
            return None
        at, kind = entry.special
        if kind == "this":
            part = arguments[at]
            return True if part.kind == "Name" and part.word == "this" else None
        return {"sign": SIGNS, "mode": MODES}[kind].get(self.path(arguments[at]))

    def call_method(self, method, node):
        result, *params, block = method.parts
        if len(params) != len(node.parts):
            raise Refusal("E1", node.place)
        arguments = self.operands(node.parts, node.place)
        wanted = None if result.kind == "Void" else declared_of(result)
        variables = self.bound(params, arguments, node.place)
        if self.frame.depth == DEEPEST:
            raise Refusal("E8", node.place)
        caller = self.frame
        self.frame = Frame(wanted, caller.depth + 1, variables)
        left = self.statements(block.parts)
        self.frame = caller
        return left.value if left else NOTHING


# graphs and projects


def graph_refusal(name, calls, nodes):
    """The refusal of a kernel whose run ended well, or None."""
    if nodes > MOST_NODES:
        return Refusal("G4", name, nodes)
    seen = set()
    for call in calls:
        if call[0] in ("input", "output", "scalar"):
            if call[:2] in seen:
                return Refusal("G3", name, call[1])
            seen.add(call[:2])
    made = [call for call in calls if call[0] != "connect"]
    counted = {call[1] for call in calls if call[0] == "chain counter"}
    connected = [call[1] for call in calls if call[0] == "connect"]
    feeds = [node for node, call in enumerate(made) if call[0] == "feed"]
    empty = [node for node, call in enumerate(made) if call[0] == "chain" and node not in counted]
    twice = [node for node in feeds if connected.count(node) > 1]
    open_ = [node for node in feeds if node not in connected]
    for code, found in (("G6", empty), ("G2", twice), ("G1", open_)):
        if found:
            return Refusal(code, name, found[0])
    return None


@dataclass
class Built:
    """What a source builds: the line of its refusal or None, the calls of each kernel that was run, and the manager's run; the
    runs of the kernels, and the refusal itself, with the calls that it came through."""

    line: str
    kernels: list
    manager: object = None
    steps: int = 0
    runs: list = field(default_factory=list)
    fault: Refusal = None


def build(source, Run=Run):
    """What the constructors of a source that breaks no code S do. Another class of runs may note more of what they do."""
    classes = classes_of(source)
    kernel_classes = {class_.name: class_ for class_ in classes if not class_.manager}
    built = Built(None, [])
    try:
        manager = next((class_ for class_ in classes if class_.manager), None)
        if manager:
            built.manager = Run(manager, kernel_classes)
            built.manager.run([])
            wanted = built.manager.kernels
        else:
            (class_,) = kernel_classes.values()
            if not PORT_NAME.fullmatch(class_.name):
                raise Refusal("E11", class_.place)
            wanted = [(class_.name, class_, [])]
        for name, class_, arguments in wanted:
            run = Run(class_)
            built.runs.append(run)
            built.kernels.append((name, run.calls))
            try:
                run.run(arguments)
            finally:
                built.steps = STEPS - run.left
            refusal = graph_refusal(name, run.calls, run.nodes)
            if refusal:
                raise refusal
    except Refusal as refusal:
        built.line, built.fault = refusal.line, refusal
    return built
