"""A way to each refusal code of each command, with what is to be said of it on standard error.

A case has the line that the program says, the files, the beginning of what stands at the place that is told, and parts of the cause and
of the remedy. Where a source has no class it is the body of the constructor of a kernel K with an input x.
"""
from dataclasses import dataclass, field

ZERO = "{" + ", ".join(f'"{op}": [[1, 0]]' for op in "add sub mul div neg and or xor not eq ne lt le gt ge mux round".split()) + "}"
ONE = ZERO.replace("0]]", "1]]")
SLOW = ZERO.replace('"add": [[1, 0]]', '"add": [[1, 2]]').replace('"mux": [[1, 0]]', '"mux": [[1, 1]]')
PASS = "class K extends Kernel {\n  K(KernelParameters p) {\n    super(p);\n    DFEVar x = io.input(\"x\", dfeUInt(8));\n%s\n  }\n}\n"
COPY = 'io.output("y", x, dfeUInt(8));'
SUM3 = 'io.output("y", stream.offset(x, -1) + x + stream.offset(x, 1), dfeUInt(8));'
LOOP = """DFEVar old = dfeUInt(8).newInstance(this);
DFEVar at = control.count.simpleCounter(40);
DFEVar sum = at === 0 ? x : x + old;
old <== stream.offset(sum, -1);"""
MANAGER = """class A extends Kernel {
  A(KernelParameters p) {
    super(p);
    DFEVar x = io.input("x", dfeUInt(8));
    io.output("y", x, dfeUInt(8));
  }
}
class B extends Kernel {
  B(KernelParameters p) {
    super(p);
    DFEVar x = io.input("x", dfeUInt(9));
    io.output("y", x, dfeUInt(9));
  }
}
class M extends CustomManager {
  M(EngineParameters e) {
    super(e);
%s
  }
}
"""
KERNELS = 'KernelBlock a = addKernel(new A(makeKernelParameters("A")));\nKernelBlock c = addKernel(new A(makeKernelParameters("C")));\n'
WIDER = 'KernelBlock b = addKernel(new B(makeKernelParameters("B")));\n'
RUN = '{"ticks": {"K": 3}, "inputs": {"x": "x.txt"}, "outputs": {"y": "y.txt"}, "edges": 100}'


def whole(source):
    """The source of a body."""
    return source if source is None or "class" in source or source.startswith("|") else PASS % source


@dataclass
class Case:
    """A refusal: what the commands are to say, and what is to be told of it."""

    said: str
    source: str = None
    at: str = ""
    cause: str = ""
    remedy: str = ""
    table: str = ZERO
    report: str = None
    run: str = RUN
    words: str = "1\n2\n3\n"
    text: str = None
    commands: tuple = ("compile", "check", "expect")
    more: tuple = ()
    files: dict = field(default_factory=dict)

    @property
    def code(self):
        return self.said.partition(" ")[0]


def manager(body):
    return MANAGER % body


BYTES = [
    Case("S1 0", "|\u00c8", "\u00c8", "the byte 200", "take the byte out"),
    Case("S2", "DFEVar z = x # x;", "# x", "no token begins with `#`", "cast(dfeUInt(16)) << 8"),
    Case("S2", "int a = 0b11;", "b11", "no binary numbers", "0xf"),
    Case("S2", "int a = 1_000;", "_000", "directly behind the number `1`", "without `_`"),
    Case("S2", "int a = 010;", "10;", "doesn't begin with 0", "0x"),
    Case("S2", "/* never ends", "/* never", "the comment that begins here doesn't end", "comment"),
    Case("S2", 'io.input("a\\n", dfeUInt(8));', '"a', "has a `\\` in it", "without"),
    Case("S4", "switch (x) { }", "switch", "`switch` is a word of Java", "control.mux"),
    Case("S4", "int a = 340282366920938463463374607431768211456;", "3402", "above 2^128 - 1", "LANGUAGE.md"),
    Case("S4", "x = x * 0.1234567890123456789012345678901;", "0.123", "at most 30", "LANGUAGE.md"),
    Case("S5", "x = " + "(" * 201 + "x" + ")" * 201 + ";", "(", "over 200 of", "parts"),
    Case("S5", "x = x" + " + x" * 1001 + ";", ";", "over 2,000 tokens", "name"),
    Case("S3 5", "|class", "", "the source ends here, behind `class`; expected a name", "close what is open"),
    Case("S3", "for (int i = 0; i < 4; ++i) { }", "++i", "`++` can't stand here", "i++"),
    Case("S3", "DFEVar[] v = {x};\nfor (DFEVar w : v) { }", ": v", "`:` can't stand here", "v.length"),
    Case("S3", "for (int i = 0; i < 2; i++)\nfor (int j = 0; j < 2; j++) { }", "for (int j", "`for` can't stand here", "braces"),
    Case("S3", "int a = 5\nint b = 6;", "int b", "can't stand here", "put the `;`"),
    Case("S3", "int a[] = {1};", "[]", "can't stand here", "int[] a"),
    Case("S3", "int a = 1, b = 2;", ", b", "can't stand here", "statement of its own"),
    Case("S3", "int[][] a = new int[2][];", "];", "can't stand here", "each size"),
    Case("S3", "int a = 7;\na /= 2;", "= 2", "can't stand here", "a = a / b"),
    Case("S3", "int a = 7 >>> 1;", "> 1", "can't stand here", "`>>`"),
    Case("S3", "int a = (int) 5;", "int) 5", "can't stand here", "cast"),
    Case("S3", "super.toString();", "super.", "`super` can't stand here", "first statement"),
    Case("S3", "List<DFEVar> v = x;", "= x", "can't stand here", "array"),
    Case("S3", "|class K {\n}\n", "{", "expected `extends`", "CustomManager"),
    Case("S3", "|class K extends KernelLib {\n}\n", "KernelLib", "expected `Kernel` or `CustomManager`", "no others as parents"),
    Case("S6", "|class M extends CustomManager {\n  M(EngineParameters e) { super(e); }\n}\n", "class M", "no kernel", "write a kernel"),
    Case("S6", whole(COPY) + whole(COPY), "class K", "two classes have the name `K`", "rename"),
    Case("S6", whole(COPY) + whole(COPY).replace("K(", "L(").replace("class K", "class L"), "class L", "2 kernels and no manager", "manager"),
]
TABLES = [
    Case("T1", COPY, "", "no JSON text", "mend the JSON", table="[\n"),
    Case("T1", COPY, "}", "expecting", "mend the JSON", table='{"add": [[1, 1]],\n }'),
    Case("T2 -", COPY, "[]", "no object", "write an object", table="[]"),
    Case("T2 adds", COPY, '"adds"', "`adds` names no operation; the nearest one is `add`", "mux", table='{"add": [[1, 0]],\n "adds": []}'),
    Case("T2 add", COPY, '"add"', "`[1]`", "[[1, 0]", table='{"add": [[1]]}'),
    Case("T3 add", COPY, '"add"', "the latency 70 isn't 0 to 64", "latencies of 0 to 64", table='{"add": [[1, 70]]}'),
    Case("T3 add", COPY, '"add"', "the width 4 isn't above 8", "rise from row to row", table='{"add": [[8, 0], [4, 0]]}'),
    Case("L1 K add 8", "x = x + 1;", "x + 1", "`add` works on 8 bits here, and needs a latency of the table, which has no row",
         '"add": [[1, 0]]', table="{}", more=("node 2, add: ",)),
    Case("L1 K add 8", "x = x + 1;", "x + 1", "begin at 9 bits", '"add": [[1, 0]]', table='{"add": [[9, 1]]}'),
]
RUNS = [
    Case("E1", "int a = b;", "b;", "`b` isn't declared", "declare"),
    Case("E1", 'io.input("z");', "io.input", "gets 1 argument", "give the arguments"),
    Case("E1", "Foo a;", "Foo", "`Foo` is no type", "use one of"),
    Case("E1", "DFEVar z = x.slice(0, 8);", "x.slice", "no value has a method `slice`", "(x >> k)"),
    Case("E1", "DFEVar z = io.input(\"z\", dfeFloat(8, 24));", "dfeFloat", "a method `dfeFloat`", "dfeFix"),
    Case("E1", "DFEVar z = streem.offset(x, 1);", "streem", "the nearest name is `stream`", "declare"),
    Case("E1", "DFEVar z = this;", "this;", "`this` is no value", "without `this.`"),
    Case("E1", "DFEVar z = this.x;", "this.x", "no part `x`", "without `this.`"),
    Case("E1", "|" + PASS.replace("KernelParameters p", "KernelParameters p, int n") % COPY, "K(Kernel", "2 parameters, and gets 1 argument", "add a manager"),
    Case("E2", "x <== x;", "x <==", "and not a feed", "newInstance"),
    Case("E2", "if (x === 1) { }", "if", "the condition of `if` is a stream of `dfeBool()`", "control.mux"),
    Case("E2", "int a = true;", "int a", "the variable `a` is of the type `int`, and gets the truth value `true`", "of its type"),
    Case("E2", "DFEVar sum = 0;", "DFEVar sum", "`DFEVar`, and gets the int 0", "constant.var"),
    Case("E2", "DFEVar z = x == 3 ? x : x;", "x == 3", "`==` isn't an operator between a stream", "==="),
    Case("E2", "DFEVar z = x % 3;", "x % 3", "`%` isn't an operator between a stream", "x - x / n * n"),
    Case("E2", "DFEVar z = x >> x;", "x >> x", "`>>` isn't an operator between a stream", "int"),
    Case("E2", "DFEVar z = stream.offset(x, x);", "stream.offset", "here it gets a stream of `dfeUInt(8)`, a stream of `dfeUInt(8)`", "control.mux"),
    Case("E3 1", 'x = x + io.input("z", dfeUInt(9));', "x + io", "`dfeUInt(8)` and `dfeUInt(9)`", "cast"),
    Case("E3 1", 'io.output("y", x, dfeUInt(16));', "io.output", "the output of `dfeUInt(16)`", "cast"),
    Case("E3 1", 'x = x ? x : x;', "x ? x", "must be of `dfeBool()`", "x !== 0"),
    Case("E3 2 neg", "x = -x;", "-x", "(neg) isn't an operation of `dfeUInt(8)`", "dfeInt(9)"),
    Case("E3 2 cast", "x = x + 0.5;", "x + 0.5", "a decimal number is of `dfeFix` alone", "dfeFix"),
    Case("E3 3", 'DFEVar f = io.input("f", dfeFix(33, 32, SignMode.UNSIGNED));\nDFEVar g = f * f;', "f * f", "of 65 bits", "fewer bits"),
    Case("E3 4", "x = x + 256;", "x + 256", "which has 0 to 255", "wider"),
    Case("E3 5 128", "x = x << 128;", "x << 128", "by 0 to 127", "shift"),
    Case("E3 6 1", "x = control.mux(x, x);", "control.mux", "chooses among 2 to 64 options, and here there are 1", "options"),
    Case("E4", "int[] a = new int[-1];", "new int", "the size is -1", "0 to 65,536"),
    Case("E4", "int[] a = new int[2];\nint b = a[2];", "a[2]", "the index is 2, and the array has 2 elements", ".length"),
    Case("E5", "int a = 1 / 0;", "1 / 0", "the divisor is 0", "test the divisor"),
    Case("E6", "int a;\nint b = a;", "a;", "the variable `a` isn't set yet", "before it is read"),
    Case("E6", 'DFEVar y = io.output("y", x, dfeUInt(8));', "DFEVar y", "a call stands here that gives no value", "return"),
    Case("E7", "int i = 0;\nwhile (true) { i++; }", "while", "this loop was running", "turns"),
    Case("E8", "|" + PASS.replace("  K(Kern", "  void f() { f(); }\n  K(Kern") % "f();", "f();", "called 65 deep", "loop"),
    Case("E9 5 1048577", "x = stream.offset(x, 1048577);", "stream.offset", "the offset is 1048577", "less"),
    Case("E10", 'String s = "' + "a" * 65 + '";', '"aaa', "has 65 bytes", "shorten"),
    Case("E11", 'io.input("1x", dfeUInt(8));', "io.input", "`1x` isn't a letter", "rename"),
    Case("E11 0", "|" + (PASS % COPY).replace("K", "_K").replace("_Kernel", "Kernel"), "class _K", "`_K`", "rename"),
    Case("E12", "optimization.popRoundingMode();", "optimization", "none that was pushed is left", "push"),
    Case("E13 1 5 2", "control.count.simpleCounter(2, 5);", "control", "the bound is 5", "bound"),
    Case("E13 2 0", "CounterChain c = control.count.makeCounterChain();\nDFEVar z = c.addCounter(3, 0);", "c.add", "the step is 0", "step"),
    Case("E13 3 155", "CounterChain c = control.count.makeCounterChain();\nfor (int i = 0; i < 5; i++) { c.addCounter(2147483647, 1); }", "c.add",
         "155 bits in all", "two chains"),
    Case("E14", "DFEType t = dfeUInt(0);", "dfeUInt(0)", "asks for 0 bits", "1 to 128"),
    Case("E15", "int a; { int a; }", "int a; }", "`a` is the name of a parameter or variable", "rename"),
]
GRAPHS = [
    Case("G4 K 4097", "for (int i = 0; i < 4096; i++) { x = ~x; }", "~x", "makes 4097 nodes", "fewer nodes", more=("node 4096, not: ",)),
    Case("G3 K y", COPY + "\n" + COPY, "io.output", "two outputs have the name `y`", "rename", more=("node 1, output y: ", "node 2, output y: ")),
    Case("G6 K 1", "control.count.makeCounterChain();", "control", "has no counter", "add a counter", more=("node 1, chain: ",)),
    Case("G2 K 1", "DFEVar v = dfeUInt(8).newInstance(this);\nv <== x; v <== x;", "dfeUInt(8).new", "connected 2 times", "once",
         more=("node 1, feed: ", "connected: ")),
    Case("G1 K 1", "DFEVar v = dfeUInt(8).newInstance(this);", "dfeUInt(8).new", "no `<==` connects", "connect", more=("node 1, feed: ",)),
    Case("C1 K latency 0 back 0 nodes 1", "DFEVar v = dfeUInt(8).newInstance(this);\nv <== v;", "dfeUInt(8).new", "looks back 0, and its latency is 0",
         "stream.offset(v, -1)", more=("node 1, feed: ",)),
    Case("C2 K latency 3 back 1 nodes 1 5 6", LOOP, "dfeUInt(8).new", "looks back 1, and its latency is 3: add 2, mux 1",
         "look back 3 or more on the loop instead of 1", table=SLOW,
         commands=("compile",), more=("node 1, feed: ", "node 5, add, 2 ticks: ", "node 6, mux, 1 tick, read 1 tick later: ")),
    Case("B1 K 402653184", "|" + (PASS % (
        "DFEVar z = x;\nfor (int i = 0; i < 3; i++) { z = stream.offset(z, -1048576); }\nio.output(\"y\", z + x, dfeUInt(128));")).replace("(8)", "(128)"),
        "stream.offset", "402653184 bits", "look less far", commands=("compile",), more=("offset -1048576: ",)),
]
JOINS = [
    Case("P7 x", manager('addStreamFromCPU("x");\naddStreamFromCPU("x");'), "addStream", "two streams from the CPU have the name `x`", "rename"),
    Case("P9 0", manager(""), "class M", "adds no kernel", "1 to 64"),
    Case("P1 A z", manager(KERNELS + 'a.getInput("z") <== addStreamFromCPU("x");'), "a.getInput", "has no input `z`; its inputs are `x`", "name of a port"),
    Case("P3 A.x", manager(KERNELS + 'a.getInput("x") <== addStreamFromCPU("x");\na.getInput("x") <== addStreamFromCPU("z");'), "a.getInput",
         "`A.x` stands in more than one join", "join it once", more=("from x to A.x: ", "from z to A.x: ")),
    Case("P8 y", manager(KERNELS + 'addStreamToCPU("y") <== addStreamFromCPU("x");'), "addStream", "from the CPU to the CPU", "kernel between"),
    Case("P4 B.x", manager(KERNELS + WIDER + 'b.getInput("x") <== a.getOutput("y");'), "b.getInput",
         "the output is of `dfeUInt(8)`, and the input of `dfeUInt(9)`", "cast"),
    Case("P2 A.x", manager(KERNELS), "io.input", "the input `A.x` is joined to nothing", "join it"),
    Case("P5 A C", manager(KERNELS + 'a.getInput("x") <== c.getOutput("y");\nc.getInput("x") <== a.getOutput("y");'), "",
         "`A`, `C` wait for one another", "feed", more=("link 0, from C.y to A.x: ", "link 1, from A.y to C.x: ")),
]
DEEP = manager(
    KERNELS + 'KernelBlock d = addKernel(new D(makeKernelParameters("D")));\nDFELink i = addStreamFromCPU("i");\na.getInput("x") <== i;\n'
    'c.getInput("x") <== addStreamFromCPU("j");\nd.getInput("x") <== a.getOutput("y");\nd.getInput("z") <== c.getOutput("y");\n'
    'addStreamToCPU("o") <== d.getOutput("y");'
) + """class D extends Kernel {
  D(KernelParameters p) {
    super(p);
    DFEVar x = io.input("x", dfeUInt(8));
    DFEVar z = io.input("z", dfeUInt(8));
    io.output("y", stream.offset(x, 70000) + z, dfeUInt(8));
  }
}
"""
VERILOG = """module top (
  input wire [0:0] clk,
  input wire [0:0] reset,
  input wire [0:0] hold$K,
  input wire [47:0] ticks$K,
  input wire [7:0] in$x$data,
  input wire [0:0] in$x$valid,
  output wire [0:0] in$x$ready,
  output wire [7:0] out$y$data,
  output wire [0:0] out$y$valid,
  input wire [0:0] out$y$ready,
  output wire [0:0] done
);
  wire [0:0] w0;
  wire [7:0] w1;
  reg [0:0] r0;
  assign w0 = 1'h0;
  assign w1 = 8'h0;
  assign in$x$ready = r0;
  assign out$y$data = in$x$data;
  assign out$y$valid = in$x$valid;
  assign done = w0;
  always @(posedge clk) begin
    if (in$x$valid) r0 <= in$x$valid;
  end
endmodule
"""


def text(said, old, new, at, cause, remedy, **others):
    """A refusal of a text in which one line is another one."""
    assert VERILOG.count(old) >= 1
    return Case(said, None, at, cause, remedy, text=VERILOG.replace(old, new, 1), commands=("simulate",), **others)


TEXTS = [
    text("V1", "  reg [0:0] r0;", "  # reg", "# reg", "no token of a text begins with `#`", "take it out"),
    Case("V2 0", None, "class", "`class` can't stand here", "this file is a source", text="class K extends Kernel {\n}\n", commands=("simulate",)),
    text("V2", "8'h0", "8'h100", "8'h100", "out of range", "syntax"),
    text("V3 1 w9", "= w0;", "= w9;", "w9", "declared nowhere", "declare"),
    text("V3 2 w1", "8'h0;", "4'h0;", "w1 =", "don't agree", "widths"),
    text("V3 3 w0", "  assign w1 = 8'h0;", "  assign w1 = 8'h0;\n  assign w0 = 1'h1;", "w0 = 1'h1", "more drivers", "once",
         more=("top.v:17: assign w0 = 1'h0;",)),
    text("V3 4 w0 w2", "  assign w0 = 1'h0;", "  wire [0:0] w2;\n  assign w0 = w2;\n  assign w2 = w0;", "w0 = w2", "feed one another",
         "register", more=("assign w0 = w2;", "assign w2 = w0;")),
    text("V3 5 w1", "  assign w1 = 8'h0;\n", "", "w1;", "nothing gives it its word", "assign"),
    text("V3 6 w1", "  wire [7:0] w1;", "  wire [7:0] w1;\n  wire [7:0] w1;", "w1;", "declared twice", "rename"),
    text("V4 out$y$ready", "  input wire [0:0] out$y$ready,\n", "  input wire [7:0] out$y$ready,\n", "out$y$ready",
         "has the port `out$y$ready`", "ports of a run"),
    text("V5", "  reg [0:0] r0;", "  reg [0:0] r0;\n  reg [7:0] m0 [0:67108864];", "reg [7:0] m0", "67,108,864", "smaller"),
]


def run_case(said, run, at, cause, remedy, **others):
    return Case(said, COPY, at, cause, remedy, run=run, text=VERILOG, commands=("simulate", "expect"), **others)


RUN_FILES = [
    run_case("U1", '{"ticks": {"K": 3},\n "edges": }', "}", "no JSON text", "mend the JSON"),
    run_case("U2 -", "[1]", "[1]", "no object", "write an object"),
    run_case("U2 edges", RUN.replace(', "edges": 100', ""), "{", "the key `edges` is missing", '"edges": 1000'),
    run_case("U2 edges", RUN.replace("100", '"100"'), '"edges"', "must be a whole number", '"edges": 1000'),
    run_case("U2 edgs", RUN[:-1] + ', "edgs": 1}', '"edgs"', "`edgs` is a further key; the nearest one is `edges`", "`pattern`"),
    run_case("U2 ticks", RUN.replace('"K"', '"L"'), '"L"', "`K` is missing and `L` is unknown", "the kernels are `K`"),
    run_case("U2 inputs", RUN.replace('"x": "x.txt"', ""), '"inputs"', "`x` is missing", "the inputs are `x`"),
    run_case("U2 outputs", RUN.replace('"y": ', '"z": "z.txt", "y": '), '"z"', "`z` is unknown", "the outputs are `y`"),
    run_case("U2 outputs", RUN.replace("y.txt", "x.txt"), '"y"', "the same file, `x.txt`", "a file of its own"),
    run_case("U2 scalars", RUN[:-1] + ', "scalars": {"K.s": "1"}}', '"K.s"', "`K.s` is unknown; there are no scalars", "exactly what there is"),
    run_case("U2 fill", RUN[:-1] + ', "fill": 0}', '"fill"', "a string of 1 to 32", '"fill": "0"'),
    run_case("U3 x.txt 2", RUN, "1g", "`g` is no hexadecimal digit", "hexadecimal", words="1\n1g\n3\n"),
    run_case("U3 x.txt 1", RUN, "0x12", "begins with `0x`", "write `12`", words="0x12\n"),
    run_case("U3 x.txt 2", RUN, "", "the line is empty", "hexadecimal", words="1\n\n3\n"),
    run_case("U3 x.txt 1", RUN, "1\r", "carriage return", "sed", words="1\r\n2\r\n"),
    run_case("U4 x.txt 1", RUN, "100", "a number of 9 bits, and the words of `x` have 8", "at most 8 bits", words="100\n"),
    Case("X1 18000000", "io.output(\"y\", x + x, dfeUInt(8));", '"ticks"', "`K` 3 nodes in 6000000 ticks", "fewer ticks", run=RUN.replace("3}", "6000000}"),
         commands=("expect",)),
]


def report_case(said, old, new, at, cause, remedy, **others):
    """A refusal of the report on a sum of three words, in which one thing is another one."""
    return Case(said, SUM3, at, cause, remedy, table=ONE, report=(old, new), commands=("check", "expect"), **others)


ZEROS = "time 0\n" * 4
REPORTS = [
    report_case("Q1 1", "maxjc-report 1", "maxjc-report 2", "maxjc-report 2", "`maxjc-report 1`", "compile"),
    report_case("Q1 19", "\nend", "\nflow 8\nend", "flow 8", "isn't the line that follows", "compile"),
    report_case("Q1 20", "end\n", "end\nmore\n", "more", "nothing follows", "compile"),
    report_case("Q1 19", "\nend\n", "\nend", "end", "a line feed is missing", "compile"),
    report_case("Q2 2", "kernel K", "kernel L", "kernel L", "the name is L, and that of the source's kernel K", "compile"),
    report_case("Q2 2", "bits 8", "bits 9", "kernel K", "the number of bits is 9, and what these times cost is 8", "compile"),
    report_case("Q2 6", "time 0\ntime 1", "time -1\ntime 1", "time -1", "node 3", "compile"),
    report_case("Q3 K 4", "time 0\ntime 1\ntime 2", "time 0\ntime 0\ntime 2", "time 0",
                "edge 2, from node 2 to node 4: the first word that node 4 reads there is ready at time 1, and it begins at time 0", "table",
                more=("node 2, add, time 0: ", "node 4, add, time 0: ")),
    report_case("Q4 K 2", "flow 8", "flow 7", "flow", "sends 15 and takes 8, and the difference must be 8", "compile",
                more=("node 2, add: ", "flow 7 on arc")),
    report_case("Q5 K 16 8", f"bits 8\n{ZEROS}time 1\ntime 2", f"bits 16\n{ZEROS}time 2\ntime 3", "kernel K", "cost 16 bits", "better times"),
]
LONG = [
    Case("F1 k.maxj", "|" + "//" + " " * 16_777_216, "", "16,777,218 bytes, and its limit is 16,777,216", "shorter"),
    Case("F1 t.json", COPY, "", "its limit is 16,777,216", "shorter", table=" " * 16_777_217),
    Case("F1 r.report", COPY, "", "its limit is 16,777,216", "shorter", report=("", " " * 16_777_217), commands=("check", "expect")),
    Case("F1 run.json", COPY, "", "its limit is 16,777,216", "shorter", run=" " * 16_777_217, text=VERILOG, commands=("simulate", "expect")),
    Case("F1 top.v", None, "", "its limit is 67,108,864", "shorter", text=" " * 67_108_865, commands=("simulate",)),
]
CASES = [*BYTES, *TABLES, *RUNS, *GRAPHS, *JOINS, *TEXTS, *RUN_FILES, *REPORTS, *LONG,
         Case("P6 1", DEEP, "d.getInput", "would hold 70002 words", "look less far", commands=("compile", "expect"), more=("link 1, from C.y to D.z: ",))]
