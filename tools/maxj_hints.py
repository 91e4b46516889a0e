"""What to write instead of what MaxJ and Java have and this language hasn't, by the name or sign at the place that is refused."""

FEED = "`DFEVar old = t.newInstance(this); DFEVar sum = clear ? x : old + x; old <== stream.offset(sum, -1);`"
COUNT = "count in a feed: `DFEVar old = t.newInstance(this); DFEVar n = first ? 0 : old + 1; old <== stream.offset(n, -1);`"
FIRST = "`DFEVar first = control.count.simpleCounter(40) === 0;`"
ELEMENTS = "use an array of streams, `DFEVar[] v = new DFEVar[4];`, with an input or an output for each element"
TABLE = "latencies come from the latency table alone: take the call out, and give the operation its ticks there"
CHOICE = "choose among fixed amounts: `control.mux(n, a, b, c, d)` takes option number `n`"
CPU = "a manager has streams of the CPU alone, `addStreamFromCPU` and `addStreamToCPU`"
BUILD = "take the call out: `maxjc compile` reads the manager's constructor and builds the project"
MANAGER = (
    "write a manager as `class M extends CustomManager { M(EngineParameters p) { super(p); .. } }` with `addKernel` and `<==`; "
    "a source of one kernel needs no manager, and its ports are then streams of the CPU"
)
NOTE = "take it out; to see the words of a stream in a run, give it an output: `io.output(\"seen\", x, t)`"

# names that stand for one another, and what is said of each of them
NAMES = {
    "dfeFloat": "there are no floats: use fixed point, as `dfeFix(8, 24, SignMode.TWOSCOMPLEMENT)`",
    "double float": "write the number itself beside a stream of `dfeFix`, as `x * 0.5`; a whole number is an `int`",
    "dfeFixOffset dfeFixMax dfeOffsetFix": "give the bits before and behind the point: `dfeFix(8, 24, SignMode.TWOSCOMPLEMENT)`",
    "dfeRawBits": "use `dfeUInt(n)`",
    "mem Memory rom ram mem.alloc": "choose among constants, `control.mux(address, entry0, entry1, ..)` with 2 to 64 options; for words of "
    "earlier ticks use `stream.offset(x, -k)`",
    "makeOffsetAutoLoop OffsetAutoLoop stream.makeOffsetAutoLoop": "write the distance as a number, `stream.offset(sum, -4)`: at least as "
    "many ticks as the loop's operations take. If it is too short, the refusal C2 says how many they take",
    "makeOffsetParam OffsetExpr makeOffsetConstraint": "write the offset as an `int` of the constructor: `stream.offset(x, -16)`",
    "slice": "for `n` bits from bit `k` on write `(x >> k).cast(dfeUInt(n))`",
    "cat #": "to put `a` above `b` of 8 bits write `(a.cast(dfeUInt(16)) << 8) | b.cast(dfeUInt(16))`",
    "DFEVector DFEVectorType DFEStruct DFEStructType DFEComplex DFEComplexType DFEArray DFEArrayType": ELEMENTS,
    "KernelMath.max KernelMath.min Math.max Math.min max min": "write `a > b ? a : b` for the greater of two, `a < b ? a : b` for the lesser one",
    "KernelMath.abs Math.abs abs": "write `x < 0 ? -x : x`",
    "KernelMath Math": "write a method of your own. The greater of two is `a > b ? a : b`, a magnitude `x < 0 ? -x : x`; a square root, "
    "a sine or a logarithm is a method of additions, products and choices",
    "Reductions Accumulator Reductions.accumulator makeAccumulator Accumulator.Params": f"write the sum with a feed: {FEED}",
    "Reductions.streamHold": "it takes a stream and a store; to set it anew write a feed: `DFEVar old = t.newInstance(this); DFEVar held = "
    "reset ? 0 : (store ? x : old); old <== stream.offset(held, -1);`, with `reset` 1 in the first tick",
    "debug simPrintf dfePrintf simWatch": NOTE,
    "System System.out println": "take it out: nothing is printed while a constructor runs",
    "Count Counter control.count.makeParams control.count.makeCounter makeCounter Count.Params": "use `control.count.simpleCounter(bits, bound)`, "
    "or for a step `control.count.makeCounterChain().addCounter(bound, step)`; their bounds are `int`s of the constructor",
    "control.count.makeCounterChain": f"a chain steps in each tick and takes no enable: {COUNT}, with `enable ? old + 1 : old` for the step",
    "control.count.simpleCounter": f"its bits and bound are `int`s of the constructor; for a bound that a stream or scalar has, {COUNT}, "
    "with `old === size - 1 ? 0 : old + 1` for the step",
    "control.count.pulse pulse": f"the first tick is {FIRST}",
    "getType": "keep the type in a variable: `DFEType t = dfeUInt(3);`, and use it wherever the type is wanted",
    "constant.var": "it takes the type and then the number: `constant.var(dfeUInt(8), 1)`; beside a stream write the number alone, `x + 1`",
    "eq neq ne lt lte gt gte": "write the operator: `a === b`, `a !== b`, `a < b`, `a <= b`, `a > b`, `a >= b`",
    "add sub mul div neg and or xor not": "write the operator: `a + b`, `a - b`, `a * b`, `a / b`, `-a`, `a & b`, `a | b`, `a ^ b`, `~a`",
    "shiftLeft shiftRight": "write `x << k` or `x >> k` with an `int` `k`",
    "pushPipeliningFactor popPipeliningFactor pipeline optimization.pipeline optimization.pushPipeliningFactor "
    "optimization.popPipeliningFactor optimization.pushDSPFactor optimization.popDSPFactor optimization.limitFanout optimization": TABLE,
    "stream.offset": f"the offset is an `int` of the constructor. For one that a stream has, {CHOICE}, each a `stream.offset` of its own",
    "io.scalarOutput scalarOutput": "write an output with a control that is 1 in the last tick: `io.output(\"y\", v, t, last)`",
    "io.forceOutput io.setRegister io.pushInputRegistering": "take it out: each port has its FIFO, and registers are placed by the schedule",
    "IOType setIO setKernel createSLiCInterface build config setBuildConfig addMaxFileConstant getCurrentKernel": BUILD,
    "Manager MAX5CManager MAX4CManager MAXRingManager EngineParameters": MANAGER,
    "addStreamToOnCardMemory addStreamFromOnCardMemory addStreamToLMem addStreamFromLMem iface InterfaceDefault EngineInterface": CPU,
    "KernelLib KernelLibrary KernelBase": "classes have no others as parents: write what it does as methods of the kernel",
    "KernelStateMachine ManagerStateMachine StateMachine SMIO": "write the state as a feed: `DFEVar old = t.newInstance(this); DFEVar next = ..; "
    "old <== stream.offset(next, -1);`",
    "List ArrayList Map HashMap Vector": "use an array: `DFEVar[] v = new DFEVar[n];`",
    "Integer Long Double Boolean long short byte char": "a number of the constructor is an `int`; a wider one is written where it is used",
    "String.format MathUtils": "write it as a method of your own, by `int`s and a loop",
    "throw try catch finally throws assert": "take it out; to refuse an `int` `n` below 1 there is `int[] ok = new int[n - 1];`, which is "
    "E4 then",
    "switch case default": "write `if (..) .. else if (..) .. else ..` for `int`s, `control.mux(s, a, b, ..)` for streams",
    "break continue do": "write a `while` or `for` whose condition says when it ends",
    "interface enum implements abstract instanceof": "classes are kernels and managers alone: write methods, and an `int` for each case",
    "null": "a variable that isn't set yet is declared without a value: `DFEVar sum;`",
    "synchronized volatile native goto": "take it out: it has no meaning in hardware",
}
# by what is done with what
FORMS = {
    "== stream": "on streams write `===`, which gives a stream of `dfeBool()`; `==` is between values of the constructor",
    "!= stream": "on streams write `!==`, which gives a stream of `dfeBool()`; `!=` is between values of the constructor",
    "&& stream": "on streams of `dfeBool()` write `&`",
    "|| stream": "on streams of `dfeBool()` write `|`",
    "! stream": "on a stream of `dfeBool()` write `~`; of a wider one `x === 0`",
    "% stream": "for a power of two write `x & (n - 1)`, else `x - x / n * n`",
    "shift by stream": f"a shift is by an `int` of the constructor; {CHOICE}, as `control.mux(n, a, a >> 1, a >> 2, a >> 3)`",
    "condition of a stream": "`if`, `while` and `for` decide while the constructor runs; between streams choose by `c ? a : b` or `control.mux`",
    "number to DFEVar": "make a stream of the number: `constant.var(dfeUInt(8), 5)`; beside a stream the number alone is enough",
    "stream to int": "an `int` is a number of the constructor; declare the variable as `DFEVar`",
    "null offset": "the offset is an `int` of the constructor",
    "two widths": "make one as wide as the other, as `a.cast(dfeUInt(16)) + b`; the result has that width too",
    "output type": "cast the stream to the port's type, as `io.output(\"y\", a.cast(dfeUInt(16)), dfeUInt(16))`",
    "control": "a control has one bit: write `x !== 0`, `x === 1`, or a comparison",
    "div of fix": "there is no quotient of fixed point: multiply by the reciprocal, as `a * 0.5` for `a / 2`",
    "neg of unsigned": "cast to a signed type first, as `-(x.cast(dfeInt(9)))`",
    "shift of fix": "multiply by a power of two, as `x * 0.25`",
    "decimal beside whole": "a decimal stands beside `dfeFix` alone: cast the stream, as `x.cast(dfeFix(8, 8, SignMode.UNSIGNED)) + 0.5`",
    "bit from wide": "for whether any bit is 1 write `x !== 0`, for the lowest one `(x & 1) === 1`",
    "long sum": "sum in pairs, or by parts with a name",
    "undeclared": "declare it before it is used, or write the name as the tables of docs/LANGUAGE.md have it",
    "no type": "use one of `int`, `boolean`, `String`, `DFEVar`, `DFEType`, `CounterChain`, and in a manager `KernelBlock` or `DFELink`",
    "no call": "use the calls of docs/LANGUAGE.md, or write a method of that name",
    "other count": "give the arguments that it takes",
    "other type": "give it a value of its type, or declare it as the type of the value",
    "other kind": "use values that the operator takes (docs/LANGUAGE.md, \"Expressions\")",
    "other kinds": "give it values of these kinds",
    "no object": "write what it does as methods of this class: a source is one file, and has kernels and a manager alone",
    "no feed": "connect a feed: `DFEVar v = dfeUInt(8).newInstance(this); v <== x;`",
    "no result": "give the method the type of the value in place of `void`, or write `return;`",
    "unset": "give it a value before it is read",
    "no value": "return a value from the method, or let the call stand as a statement of its own",
    "other size": "give a size of 0 to 65,536",
    "other index": "keep the index below the array's `.length`, and at 0 or more",
    "open comment": "end the comment by `*/`",
    "open string": "end the string by `\"` in its line",
    "open end": "close what is open: each `{`, `(` and `[`, and the last statement by `;`",
    "two managers": "leave one manager",
    "no kernel": "write a kernel: `class K extends Kernel { K(KernelParameters p) { super(p); .. } }`",
    "two names": "rename one of them",
    "two kernels": "add a manager that joins them, or leave one kernel",
    "++i": "write `i++` or `i += 1`: the prefix forms aren't in the language",
    "for each": "count through the array: `for (int k = 0; k < v.length; k++) { DFEVar w = v[k]; .. }`",
    "body": "put the inner statement in braces: the body of a loop or an `if` is a block, an assignment, a call or a `return`",
    "0b": "write the number in hexadecimal digits, as `0xf` for `0b1111`, or in decimal ones",
    "0 before digits": "a decimal number has no 0 before it; in other bases there is `0x` alone",
    "_ in number": "write the number without `_`",
    "f behind number": "write the number alone, without a letter behind it",
    "exponent": "write the number without an exponent",
    "no extends": MANAGER,
    "generics": "types have no parameters: " + ELEMENTS,
    "two declared": "declare each variable in a statement of its own",
    "array behind name": "write the brackets behind the type: `int[] a`",
    "open size": "give each size: `new int[n][m]`",
    "compound": "the compound assignments are `+=`, `-=` and `*=`; write `a = a / b` for the others",
    ">>>": "write `>>`: of a `dfeUInt` it brings zeros in",
    "->": "write a method: there are no functions without a name",
    "(type)": "between types of streams cast by `x.cast(t)`; between `int`s there is nothing to cast",
    "semicolon": "put the `;` where the statement ends",
    "'": "a string stands in `\"`, and there are no characters",
    "@": "take the annotation out",
    "\\": "a string has no `\\` in it: write it without",
    "super": "`super(p);` is the first statement of a constructor, and stands nowhere else; call methods by their name alone",
    "this": "write the name alone, without `this.`",
    "two constructors": "a class has one constructor; give its parameters from the manager: `new K(makeKernelParameters(\"K\"), 16)`",
    "parameters without manager": "without a manager a kernel gets its first parameter alone: use fields (`int n = 16;`), or add a manager",
}


def by_names():
    return {name: text for names, text in NAMES.items() for name in names.split()}


def hint_of(keys):
    """The hint for the first of these names and forms that has one, or None. Of a path its beginnings and its last name count too."""
    named = by_names()
    for key in keys:
        if key in FORMS:
            return FORMS[key]
        parts = key.split(".")
        fronts = [".".join(parts[:count]) for count in range(len(parts), 0, -1)]
        for name in [*fronts, parts[-1]]:
            if name in named:
                return named[name]
    return None
