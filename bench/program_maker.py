"""Random constructors, mostly well formed, some broken, for bench/random_programs.py."""
import random
import re
from dataclasses import dataclass, field

WORDS = [
    "dfeUInt(8)", "dfeUInt(8)", "dfeUInt(32)", "dfeUInt(1)", "dfeUInt(128)", "dfeInt(8)", "dfeInt(16)", "dfeBool()",
    "dfeFix(4, 4, SignMode.TWOSCOMPLEMENT)", "dfeFix(4, 4, SignMode.UNSIGNED)", "dfeFix(32, 33, SignMode.UNSIGNED)",
]
OTHERS = ["dfeUInt(9)", "dfeInt(5)", "dfeFix(2, 1, SignMode.TWOSCOMPLEMENT)", "dfeUInt(1)", "dfeBool()", "dfeInt(1)"]
MODES = ["RoundingMode.TRUNCATE", "RoundingMode.TONEAR", "RoundingMode.TONEAREVEN"]
DECLARED = {"word": "DFEVar", "bit": "DFEVar"}
KINDS = ["int", "boolean", "String", "DFEType", "word", "bit", "int[]", "word[]", "int[][]", "CounterChain"]
# expressions that are refused wherever they are evaluated, and some that are refused by what uses them
BROKEN = [
    "foo", "foo()", "foo.bar", "foo.bar(1)", "io", "io.foo(1)", "this", "this.a", "(io).x", "SignMode.UNSIGNED", "1 / 0", "7 % 0", "p.x",
    "new int[-1]", "new int[65537]", "new Foo[1]", "new K(1)", "dfeUInt(0)", "dfeInt(129)", "dfeUInt()", "dfeBool(1)", "5L", "2.5", "-(-5L)",
    "dfeFix(4, 4, 1)", "dfeFix(0, 0, SignMode.UNSIGNED)", "dfeFix(1, 2, SignMode.SIGNED)", "dfeFix(-1, 9, SignMode.UNSIGNED)",
    '"0123456789012345678901234567890123456789012345678901234567890123456789"', '"a" - 1', '"a" + true', "1 === 1", "!1", "~true", '-"a"',
    "true && 1", "1 || true", "true == 1", "1 ? 2 : 3", "(5).length", "(5).cast(dfeBool())", "p", "addKernel(1)", "makeKernelParameters(1)",
    "control.mux()", "control.mux(1, 2)", 'io.input("1x", dfeUInt(8))', 'io.input("x")', 'io.input("x", 1)', "constant.var(dfeUInt(8), 256)",
    "constant.var(dfeUInt(8), 0.5)", "constant.var(dfeBool(), true)", "control.count.simpleCounter(0)", "control.count.simpleCounter(3, 9)",
    "control.count.simpleCounter(129, 0)", "control.count.makeCounterChain().addCounter(0, 1)", "control.count.makeCounterChain().addCounter(4, 0)",
    "optimization.popRoundingMode()", "optimization.pushRoundingMode(1)", "optimization.pushRoundingMode(RoundingMode.UP)", "true ? 5L : 6L",
    "dfeUInt(8).newInstance(1)", "5 >= true", "true & 1", "5 << true", "stream.offset(1, 1)", "Reductions.streamHold(1, 2)", "nothing()",
]
BROKEN_STATEMENTS = [
    "Foo f;", "final Foo f;", "foo = 1;", "int p = 1;", "return 1;", "if (1) { }", "while (1) { }", "for (;1;) { }", "foo[0] = 1;", "int u; u++;",
    "int u; int v = u;", "int u = u;", "int[] u; u[0] = 1;", "int[] u = new int[2]; u[2] = 1;", "int[] u = new int[2]; int v = u[0];",
    "boolean u = true; u++;", "int[] u = {1, true};", "int u = {1};", "int u; int u;", "int[][] u = {{1}, {2, 1 / 0}};", "String u = 1;",
    "optimization.popRoundingMode();", "DFEVar u = dfeUInt(8).newInstance(this);", "DFEVar u = dfeUInt(8).newInstance(this); u <== u; u <== u;",
    "control.count.makeCounterChain();", 'io.input("p", dfeUInt(8)); io.input("p", dfeUInt(8));', "new K(p);", "nothing() <== nothing();", "1 <== 2;",
    "DFEVar u = dfeUInt(8).newInstance(this); u <== dfeUInt(9).newInstance(this);", "int[] u = new int[1]; u = new int[1][1];", "; ; ;", "return;",
]


@dataclass
class Variable:
    name: str
    kind: str
    size: int = 0
    may_change: bool = True


@dataclass
class Maker:
    """A kernel's class in the making: what may be named where, and how often something is broken."""

    name: str = "K"
    slip: float = 0
    word: str = "dfeUInt(8)"
    count: int = 0
    loops: int = 0
    depth: int = 0
    variables: list = field(default_factory=list)
    fields: list = field(default_factory=list)
    methods: list = field(default_factory=list)

    def fresh(self, letter):
        self.count += 1
        return f"{letter}{self.count}"

    def known(self, kind):
        return [variable for variable in self.variables + self.fields if variable.kind == kind]

    # expressions

    def expr(self, kind, depth=2):
        if random.random() < self.slip:
            return self.broken(kind, depth)
        known = self.known(kind)
        if known and random.random() < (0.4 if depth > 0 else 0.8):
            return random.choice(known).name
        callable_ = [name for name, result, _ in self.methods if result == kind]
        if callable_ and depth > 0 and random.random() < 0.15:
            return self.call(random.choice(callable_), depth - 1)
        text = getattr(self, "make_" + {"int[]": "ints", "word[]": "words", "int[][]": "table"}.get(kind, kind.lower()))(depth)
        return f"({text})" if random.random() < 0.1 else text

    def broken(self, kind, depth):
        if random.random() < 0.5:
            return random.choice(BROKEN)
        return f"({self.expr(random.choice(KINDS), depth - 1)})"

    def call(self, name, depth):
        params = next(params for other, _, params in self.methods if other == name)
        arguments = [self.expr(kind, depth) for kind in params]
        if random.random() < self.slip:
            arguments = arguments[1:]
        return f"{name}({', '.join(arguments)})"

    def joined(self, kind, signs, depth):
        left, right = self.expr(kind, depth - 1), self.expr(kind, depth - 1)
        sign = random.choice(signs)
        return f"({left}) {sign} ({right})" if random.random() < 0.8 else f"{left} {sign} {right}"

    def make_int(self, depth):
        if depth <= 0 or random.random() < 0.2:
            small = [str(random.randrange(10)), str(random.randrange(10)), str(random.randrange(1000))]
            return random.choice(small + ["0x1f", "2147483647", "-2147483648", "-1", "-7"])
        form = random.randrange(9)
        if form < 3:
            return self.joined("int", ["+", "-", "*", "&", "|", "^", "<<", ">>"], depth)
        if form == 3:
            divisor = random.choice(["1", "2", "3", "-3", "7", "-1"]) if random.random() < 0.95 else self.expr("int", depth - 1)
            return f"({self.expr('int', depth - 1)}) {random.choice('/%')} {divisor}"
        if form == 4:
            return f"{random.choice('-~')}({self.expr('int', depth - 1)})"
        if form == 5:
            return f"({self.expr('boolean', depth - 1)} ? {self.expr('int', depth - 1)} : {self.expr('int', depth - 1)})"
        arrays = self.known("int[]")
        if arrays:
            array = random.choice(arrays)
            return f"{array.name}[{self.index(array)}]" if form < 8 else f"{array.name}.length"
        return self.joined("int", ["+", "-"], depth)

    def index(self, array):
        if random.random() < 0.97 and array.size:
            return str(random.randrange(array.size))
        return self.expr("int", 1)

    def make_boolean(self, depth):
        if depth <= 0 or random.random() < 0.15:
            return random.choice(["true", "false"])
        form = random.randrange(4)
        if form < 2:
            return self.joined("int", ["<", "<=", ">", ">=", "==", "!="], depth)
        if form == 2:
            return self.joined("boolean", ["&&", "||", "&", "|", "^", "==", "!="], depth)
        return f"!({self.expr('boolean', depth - 1)})"

    def make_string(self, depth):
        if depth <= 0 or random.random() < 0.4:
            return f'"{"".join(random.choices("abcxyz_09", k=random.randrange(1, 6)))}"'
        left, right = random.choice([("String", "int"), ("int", "String"), ("String", "String"), ("String", "int")])
        return f"{self.expr(left, 0)} + {self.expr(right, 0)}"

    def make_dfetype(self, depth):
        if depth <= 0 or random.random() < 0.8:
            return self.word
        return random.choice([f"dfeUInt({random.randrange(1, 129)})", f"dfeInt({self.expr('int', 1)})", random.choice(OTHERS)])

    def number(self):
        """A number for a stream of the word's type, mostly one of its values."""
        if random.random() < 0.04:
            return random.choice(["300", "-1", "2.5", "5L", "-200", "340282366920938463463374607431768211455"])
        if self.word.startswith("dfeFix"):
            return random.choice(["2.5", "0.03125", "3", "1.999", "0.5", "7.96875", "1L"] + (["-1.25", "-8"] if "TWOS" in self.word else []))
        if self.word in ("dfeBool()", "dfeUInt(1)"):
            return random.choice(["0", "1", "1L"])
        return random.choice(["0", "1", "5", "127", "0x2a", "9L"] + (["-1", "-128"] if "dfeInt" in self.word else []))

    def signs(self):
        if self.word == "dfeBool()":
            return ["&", "|", "^"]
        if self.word.startswith("dfeFix"):
            return ["+", "-"] + (["*"] if "33" not in self.word or random.random() < 0.1 else [])
        return ["+", "-", "*", "/", "&", "|", "^"]

    def make_word(self, depth):
        if depth <= 0 or random.random() < 0.1:
            return f"constant.var({self.word}, {self.number()})"
        form = random.randrange(11)
        a = self.expr("word", depth - 1)
        if form < 3:
            return self.joined("word", self.signs(), depth)
        if form < 5:
            sign, number = random.choice(self.signs()), self.number()
            return f"({a}) {sign} {number}" if form == 3 else f"{number} {sign} ({a})"
        if form == 5:
            return f"({self.expr('bit', depth - 1)} ? {a} : {random.choice([self.number(), self.expr('word', depth - 1)])})"
        if form == 6:
            options = [a] + [random.choice([self.number(), self.expr("word", depth - 1)]) for _ in range(random.choices([1, 2, 0], [40, 1, 1])[0])]
            return f"control.mux({self.expr('bit', depth - 1)}, {', '.join(random.sample(options, len(options)))})"
        if form == 7:
            return f"stream.offset({a}, {random.choice(['-1', '1', '3', '-1048576', self.expr('int', 0)])})"
        if form == 8:
            return f"Reductions.streamHold({a}, {self.expr('bit', depth - 1)})"
        if form == 9:
            return f"({a}).cast({random.choice(OTHERS)}).cast({self.word})"
        arrays = self.known("word[]")
        if arrays:
            array = random.choice(arrays)
            return f"{array.name}[{self.index(array)}]"
        return f"({a}) << {random.randrange(20)}" if self.word.startswith(("dfeUInt", "dfeInt")) else a

    def make_bit(self, depth):
        if depth <= 0:
            return f"constant.var(dfeBool(), {random.randrange(2)})"
        form = random.randrange(4)
        if form < 2:
            comparisons = ["===", "!=="] if self.word == "dfeBool()" else ["===", "!==", "<", "<=", ">", ">="]
            right = self.number() if random.random() < 0.5 else f"({self.expr('word', depth - 1)})"
            return f"({self.expr('word', depth - 1)} {random.choice(comparisons)} {right})"
        if form == 2:
            return self.joined("bit", ["&", "|", "^", "==="], depth)
        return f"~({self.expr('bit', depth - 1)})"

    def make_ints(self, depth):
        tables = self.known("int[][]")
        if tables and random.random() < 0.5:
            return f"{tables[0].name}[{random.randrange(2)}]"
        return f"new int[{random.randrange(5)}]"

    def make_words(self, depth):
        return f"new DFEVar[{random.randrange(5)}]"

    def make_table(self, depth):
        return f"new int[{random.randrange(3)}][{random.randrange(4)}]"

    def make_counterchain(self, depth):
        return "control.count.makeCounterChain()"

    # statements

    def declare(self, kind, letter="v"):
        """A declaration with a value, of a variable that may then be named."""
        declared = DECLARED.get(kind, kind.replace("word", "DFEVar"))
        size, name = 0, self.fresh(letter)
        if kind in ("int[]", "word[]"):
            inner = kind[:-2]
            size = random.randrange(1, 5)
            value = "{" + ", ".join(self.expr(inner, 1) for _ in range(size)) + "}"
        elif kind == "int[][]":
            size = 2
            value = "{{" + self.expr("int", 1) + ", 2}, {3, 4, 5}}"
        else:
            value = self.expr(kind, random.randrange(4))
        self.variables.append(Variable(name, kind, size))
        final = "final " if random.random() < 0.05 else ""
        return f"{final}{declared} {name} = {value};"

    def statement(self):
        if random.random() < self.slip:
            return "{ " + random.choice(BROKEN_STATEMENTS) + " }" if random.random() < 0.8 else random.choice(BROKEN_STATEMENTS)
        forms = [self.declaration] * 4 + [self.assignment] * 3 + [self.branch, self.loop, self.block, self.call_statement, self.turn]
        forms += [self.array, self.modes, self.counters, self.feed, self.port, self.port]
        return random.choice(forms)()

    def declaration(self):
        return self.declare(random.choice(["int", "int", "boolean", "String", "DFEType", "word", "word", "word", "bit", "int[]", "word[]", "int[][]"]))

    def assignment(self):
        known = [variable for variable in self.variables + self.fields if variable.may_change and variable.kind in ("int", "word", "boolean", "String")]
        if not known:
            return self.declaration()
        variable = random.choice(known)
        signs = {"int": ["=", "+=", "-=", "*="], "String": ["=", "="], "boolean": ["="]}.get(variable.kind, ["="])
        if variable.kind == "word" and self.word != "dfeBool()":
            signs = ["=", "+=", "-="]
        if variable.kind == "String" and random.random() < 0.15:
            return f"{variable.name} += {self.expr('int', 1)};"
        sign = random.choice(signs)
        value = self.number() if variable.kind == "word" and sign != "=" and random.random() < 0.3 else self.expr(variable.kind)
        return f"{variable.name} {sign} {value};"

    def turn(self):
        known = [variable for variable in self.known("int") if variable.may_change]
        return f"{random.choice(known).name}{random.choice(['++', '--'])};" if known else ";"

    def inner(self, most=3):
        """Statements of a block; what they declare ends with it."""
        count = len(self.variables)
        text = " ".join(self.statement() for _ in range(random.randrange(most)))
        del self.variables[count:]
        return "{ " + text + " }"

    def block(self):
        return self.inner()

    def branch(self):
        text = f"if ({self.expr('boolean')}) {self.inner()}"
        for _ in range(random.choice([0, 0, 1, 2])):
            text += f" else if ({self.expr('boolean')}) {self.inner()}"
        return text + (f" else {self.inner()}" if random.random() < 0.5 else "")

    def loop(self):
        if self.loops >= 2:
            return self.block()
        self.loops += 1
        name, most = self.fresh("i"), random.randrange(1, 4)
        count = len(self.variables)
        self.variables.append(Variable(name, "int", may_change=False))
        if random.random() < 0.7:
            first, step = random.choice([("0", "++"), ("0", " += 1"), ("-1", "++")])
            text = f"for (int {name} = {first}; {name} < {most}; {name}{step}) {self.inner()}"
        else:
            body = self.inner()
            text = f"{{ int {name} = 0; while ({name} < {most}) {{ {name}++; {body} }} }}"
        del self.variables[count:]
        self.loops -= 1
        return text

    def call_statement(self):
        if not self.methods:
            return self.declaration()
        return self.call(random.choice(self.methods)[0], 1) + ";"

    def array(self):
        """An array that is made, maybe filled, and an element that is set."""
        kind = random.choice(["int", "word"])
        name, size, i = self.fresh("a"), random.randrange(1, 5), self.fresh("i")
        text = f"{DECLARED.get(kind, kind)}[] {name} = new {DECLARED.get(kind, kind)}[{size}];"
        if random.random() < 0.9:
            text += f" for (int {i} = 0; {i} < {name}.length; {i}++) {name}[{i}] = {self.expr(kind, 1)};"
        array = Variable(name, f"{kind}[]", size, False)
        if random.random() < 0.3:
            shared = self.fresh("s")
            text += f" {DECLARED.get(kind, kind)}[] {shared} = {name};"
            self.variables.append(Variable(shared, f"{kind}[]", size, False))
        text += f" {name}[{self.index(array)}] {random.choice(['=', '=', '+=']) if kind == 'int' else '='} {self.expr(kind, 1)};"
        self.variables.append(array)
        return text

    def modes(self):
        push = f"optimization.pushRoundingMode({random.choice(MODES)});"
        inner = self.statement() if random.random() < 0.8 else self.witness()
        return f"{push} {inner} optimization.popRoundingMode();" if random.random() < 0.9 else push

    def counters(self):
        if random.random() < 0.5:
            bits, name = random.choice([1, 2, 8, 32, 128]), self.fresh("c")
            most = f", {random.choice([1, 2, 2 if bits == 1 else 3, 5])}" if random.random() < 0.4 else ""
            return f"DFEVar {name} = control.count.simpleCounter({bits}{most});"
        name = self.fresh("h")
        text = f"CounterChain {name} = control.count.makeCounterChain();"
        for _ in range(random.choice([1, 2, 2, 3, 0])):
            text += f" {name}.addCounter({random.choice([1, 2, 3, 1080, 2147483647])}, {random.choice([1, 1, 2, 7])});"
        return text

    def feed(self):
        name = self.fresh("f")
        self.variables.append(Variable(name, "word", may_change=False))
        text = f"DFEVar {name} = {self.word}.newInstance(this);"
        if random.random() < 0.3:
            text += f" {self.declare('word')}"
        value = self.expr("word")
        if random.random() < 0.5:
            value = f"{name} {random.choice('+-&|^')} ({value})"
        if random.random() < 0.6:
            value = f"stream.offset({value}, -{random.randrange(1, 5)})"
        return text + (f" {name} <== {value};" if random.random() < 0.97 else "")

    def port(self):
        counters = [variable.name for variable in self.variables if variable.name.startswith("i")]
        name = f'"{self.fresh("q")}"' + "".join(f' + "_" + {counter}' for counter in counters if random.random() < 0.9)
        enable = f", {self.expr('bit', 1)}" if random.random() < 0.2 else ""
        if random.random() < 0.5:
            return f"io.output({name}, {self.expr('word')}, {self.word}{enable});"
        kind = random.choice([("word", self.word), ("bit", "dfeBool()")])
        variable = self.fresh("x")
        call = random.choice([f"io.input({name}, {kind[1]}{enable})", f"io.scalarInput({name}, {kind[1]})"])
        self.variables.append(Variable(variable, kind[0]))
        return f"DFEVar {variable} = {call};"

    def witness(self):
        """A statement that tells by its refusal what the run has come to: what its variables are, how many nodes were made, or the
        mode of rounding."""
        form = random.randrange(8)
        if form == 0:
            return f"DFEVar {self.fresh('u')} = {self.word}.newInstance(this);"
        if form == 1:
            return "constant.var(dfeFix(1, 0, SignMode.UNSIGNED), 1.5);"
        if form == 2:
            return "constant.var(dfeFix(1, 0, SignMode.TWOSCOMPLEMENT), 0.5);"
        strings = self.known("String")
        if form == 3 and strings:
            name = random.choice(strings).name
            return f'io.scalarInput("w" + {name}, dfeUInt(8)); io.scalarInput("w" + {name}, dfeUInt(8));'
        terms = ["1"]
        for variable in self.variables + self.fields:
            if variable.kind == "int":
                terms.append(variable.name)
            elif variable.kind == "boolean":
                terms.append(f"({variable.name} ? 5 : 9)")
            elif variable.kind == "int[]" and variable.size:
                terms.append(f"{variable.name}[{random.randrange(variable.size)}] * 3 + {variable.name}.length")
            elif variable.kind == "int[][]" and variable.size:
                terms.append(f"{variable.name}[{random.randrange(variable.size)}][0]")
        hashed = " * 7 + ".join(random.sample(terms, len(terms)))
        return f'stream.offset(constant.var(dfeBool(), 1), 2097152 + (({hashed}) & 1048575));'

    # the class

    def method(self):
        result = random.choice(["int", "boolean", "word", "String", "void"])
        params = [random.choice(["int", "word", "boolean", "int[]", "bit"]) for _ in range(random.randrange(3))]
        outer, outer_loops = self.variables, self.loops
        self.variables = [Variable(self.fresh("p"), kind, 0) for kind in params]
        names = ", ".join(f"{DECLARED.get(variable.kind, variable.kind)} {variable.name}" for variable in self.variables)
        self.loops = 1
        body = " ".join(self.statement() for _ in range(random.randrange(4)))
        if result != "void" and random.random() < 0.97:
            body += f" return {self.expr(result)};"
        elif random.random() < 0.2:
            body += " return;"
        self.variables, self.loops = outer, outer_loops
        name = self.fresh("m")
        text = f"{DECLARED.get(result, result)} {name}({names}) {{ {body} }}"
        self.methods.append((name, result, params))
        return text

    def field_(self):
        kind = random.choice(["int", "boolean", "String", "DFEType", "int[]"])
        text = self.declare(kind, "g")
        self.fields.append(self.variables.pop())
        return random.choice(["", "", "private ", "static final "]) + text.removeprefix("final ")

    def kernel(self, params=(), extra="", statements=None, has_witness=True):
        """The class of the kernel, whose constructor has further parameters; `extra` stands at its end."""
        members = []
        for _ in range(random.choice([0, 0, 1, 2])):
            members.append(self.field_())
        for _ in range(random.choice([0, 0, 1, 2, 3])):
            members.append(self.method())
        if self.slip:
            members.append("void nothing() { }")
        self.variables = [Variable(name, kind, may_change=False) for kind, name in params]
        body = []
        if random.random() < 0.95:
            self.variables.append(Variable("x", "word"))
            body.append(f'DFEVar x = io.input("x", {self.word});')
        for _ in range(statements if statements is not None else random.randrange(1, 9)):
            body.append(self.statement())
        body.append(f'io.output("y", {self.expr("word")}, {self.word});')
        if has_witness and random.random() < 0.7:
            body.append(self.witness())
        ctor = f"{self.name}(KernelParameters p{''.join(f', {kind} {name}' for kind, name in params)})"
        inner = "\n    ".join(self.spaced(body))
        members.append(f"{ctor} {{\n    super(p);\n    {inner}\n    {extra}\n  }}")
        return f"class {self.name} extends Kernel {{\n  " + "\n  ".join(members) + "\n}\n"

    def spaced(self, statements):
        for text in statements:
            yield random.choice(["", "", "", "", "// a { comment\n    ", "/* another */ "]) + text


def any_maker(name="K"):
    slip = random.choice([0, 0, 0, 0.01, 0.02, 0.06])
    return Maker(name, slip, random.choice(WORDS))


def changed(source):
    """The source with some of its names and numbers turned into others of it, or statements of a line left out or put in twice."""
    for _ in range(random.choice([1, 1, 1, 2])):
        kind = random.randrange(4)
        places = list(re.finditer(r"\b[a-z][0-9]+\b" if kind < 2 else r"(?<![\w.])[0-9]+(?![\w.])", source))
        lines = source.split("\n")
        inner = [k for k, line in enumerate(lines) if line.startswith("    ") and "super" not in line]
        if kind == 3 and inner:
            k = random.choice(inner)
            lines[k : k + 1] = [lines[k]] * random.choice([0, 2])
            source = "\n".join(lines)
        elif places:
            place = random.choice(places)
            other = random.choice(places).group() if kind < 2 else random.choice(["0", "1", "2", "3", "128", "129", "65537", "2147483647"])
            source = source[: place.start()] + other + source[place.end() :]
    return source


def near(number):
    return number + random.choice([-1, 0, 0, 1, 1])


def at_a_limit():
    """A kernel that comes near to one of the limits."""
    deep, size, offset, length = near(64), near(65536), near(1048576), near(64)
    bits = near(128)
    nodes = near(4095)
    shift = near(127)
    forms = [
        f"void f(int n) {{ if (n > 1) f(n - 1); }} K(KernelParameters p) {{ super(p); f({deep}); }}",
        f"int f(int n) {{ return n > 1 ? f(n - 1) + 1 : 0; }} int a = f({deep}); K(KernelParameters p) {{ super(p); f(5); }}",
        f"int a(int n) {{ return n < 2 ? 0 : b(n - 1); }} int b(int n) {{ if (n < 2) return 1; return a(n - 1); }} K(KernelParameters p) {{ super(p); int c = 1 + a({deep}); }}",
        f"K(KernelParameters p) {{ super(p); int[] a = new int[{size}]; a[{near(65535)}] = 1; }}",
        f'K(KernelParameters p) {{ super(p); DFEVar x = io.input("x", dfeUInt(8)); x = stream.offset(x, {random.choice(["", "-"])}{offset}); }}',
        f'K(KernelParameters p) {{ super(p); String s = ""; for (int i = 0; i < {length}; i++) s += "a"; }}',
        f'K(KernelParameters p) {{ super(p); String s = "{"b" * length}"; }}',
        f"K(KernelParameters p) {{ super(p); CounterChain c = control.count.makeCounterChain(); int i; for (i = 0; i < {bits}; i++) c.addCounter(2, 1); }}",
        f'K(KernelParameters p) {{ super(p); DFEVar x = io.input("x", dfeUInt({bits})); x = x * x; }}',
        f'K(KernelParameters p) {{ super(p); DFEVar x = io.input("x", dfeUInt(8)); for (int i = 0; i < {nodes}; i++) x = ~x; }}',
        f'K(KernelParameters p) {{ super(p); DFEVar x = io.input("x", dfeUInt(8)); x = x << {shift}; x = x >> ({shift} - 128); }}',
        f'K(KernelParameters p) {{ super(p); DFEVar x = io.input("x", dfeFix({near(32)}, 32, SignMode.UNSIGNED)); x *= x; }}',
        f'K(KernelParameters p) {{ super(p); DFEVar x = io.input("x", dfeUInt({random.choice([5, 6, 7])})); x = control.mux(x{", x" * near(64)}); }}',
        f"K(KernelParameters p) {{ super(p); int[] a = {{{', '.join(['1'] * near(5))}}}; int b = a[4]; }}",
    ]
    return f"class K extends Kernel {{ {random.choice(forms)} }}\n"


def with_manager():
    """Kernels with further parameters, and a manager that adds some of them."""
    slip = random.choice([0, 0, 0.02, 0.1])
    maker = Maker("A", slip, "dfeUInt(8)")
    kernels = maker.kernel([("int", "n"), ("boolean", "b")], statements=random.randrange(3))
    kernels += Maker("B", slip, "dfeUInt(8)").kernel(statements=random.randrange(3))
    lines, blocks = [], []
    for k in range(random.randrange(1, 4)):
        name = random.choice(["k", "k", "k", "k1"]) + str(k)
        arguments = random.choice([", 3, true", ", 3 + 4, false"]) if k % 2 == 0 else ""
        if random.random() < slip:
            arguments += random.choice([", 1", ', "s"', ", 2.5", ", 1 / 0"])
        class_ = "A" if k % 2 == 0 else "B"
        lines.append(f'KernelBlock {name} = addKernel(new {class_}(makeKernelParameters("{name}"){arguments}));')
        blocks.append(name)
    for block in blocks:
        left = f'{block}.getInput("x")'
        lines.append(random.choice([f'{left} <== addStreamFromCPU("{block}_in");', f"DFELink l_{block} = {left};"]))
        lines.append(f'addStreamToCPU("{block}_out") <== {block}.getOutput("y");')
    broken = [
        "addKernel(3);", "new A(1);", "addKernel(new C(1));", "addKernel(new A());", 'addKernel(new A(makeKernelParameters("1")));', "addKernel(new A(1));",
        'addStreamFromCPU("1") <== addStreamFromCPU("2");', f'{blocks[0]}.getOutput("y") <== {blocks[0]}.getInput("x");', 'io.input("x", dfeUInt(8));',
        "int u = 1; u.getInput(1);", f"{blocks[0]}.getInput(1);", 'makeKernelParameters("x");', "EngineParameters f = e;", "KernelParameters f = e;",
        "addKernel(new A(makeKernelParameters()));", "addKernel(new A(makeKernelParameters(1)));", "addKernel(1, 2);", "dfeUInt(0);", "1 <== 2;",
    ]
    if random.random() < 0.4:
        lines.insert(random.randrange(len(lines) + 1), random.choice(broken))
    inner = "\n    ".join(lines)
    return kernels + f"class M extends CustomManager {{\n  M(EngineParameters e) {{\n    super(e);\n    {inner}\n  }}\n}}\n"


def with_all_steps(steps_of):
    """A kernel whose run takes about as many steps as it may, where it would end well."""
    state = random.getstate()
    source = any_maker().kernel(has_witness=False)
    steps = steps_of(source)
    rest = None if steps is None else 1_000_000 - steps - 983_059 - 3
    if rest is None or not 0 <= rest <= 65_535:
        return source
    extra = f"int[][] fill = new int[15][65536]; int[] rest = new int[{near(rest)}];"
    random.setstate(state)
    return any_maker().kernel(extra=extra, has_witness=False)


def any_program(steps_of):
    """A random source. `steps_of` says how many steps a kernel's run takes, or None where it is refused."""
    form = random.random()
    if form < 0.06:
        return at_a_limit()
    if form < 0.12:
        return with_manager()
    if form > 0.93:
        return with_all_steps(steps_of)
    source = any_maker().kernel()
    return changed(source) if form < 0.4 else source
