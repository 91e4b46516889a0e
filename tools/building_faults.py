"""Which of the causes of a code E holds: what the evaluator of constructors (bench/building_run.py) was doing when it stopped.

A cause is a sentence, with keys for a hint: names and forms of tools/maxj_hints.py.
"""
import difflib
import pathlib
import sys
import traceback

sys.path.insert(0, str(pathlib.Path(__file__).resolve().parent.parent / "bench"))

import kernel_library
import manager_library
import running
from building_run import ROOTS
from stream_rules import Type

SIGNATURES = {
    "io.input": "a name, a type and, where it has one, a control: `io.input(\"x\", dfeUInt(8))`",
    "io.output": "a name, a stream, its type and, where it has one, a control: `io.output(\"y\", v, dfeUInt(8))`",
    "io.scalarInput": "a name and a type: `io.scalarInput(\"s\", dfeUInt(8))`",
    "constant.var": "a type and a number: `constant.var(dfeUInt(8), 1)`",
    "stream.offset": "a stream and an `int`: `stream.offset(x, -1)`",
    "control.mux": "a selector and options, streams or numbers, one of them a stream: `control.mux(s, a, b)`",
    "control.count.simpleCounter": "its bits and, where it has one, a bound, both `int`s: `control.count.simpleCounter(8, 200)`",
    "control.count.makeCounterChain": "nothing: `control.count.makeCounterChain()`",
    "Reductions.streamHold": "a stream and a store: `Reductions.streamHold(x, s)`",
    "optimization.pushRoundingMode": "a mode: `optimization.pushRoundingMode(RoundingMode.TRUNCATE)`",
    "optimization.popRoundingMode": "nothing: `optimization.popRoundingMode()`",
    "newInstance": "`this`, behind a type: `dfeUInt(8).newInstance(this)`",
    "cast": "a type, behind a stream: `x.cast(dfeUInt(16))`",
    "addCounter": "a bound and a step, `int`s, behind a chain: `chain.addCounter(8, 1)`",
    "dfeUInt": "an `int`: `dfeUInt(8)`",
    "dfeInt": "an `int`: `dfeInt(8)`",
    "dfeBool": "nothing: `dfeBool()`",
    "dfeFix": "two `int`s and a sign mode: `dfeFix(8, 24, SignMode.TWOSCOMPLEMENT)`",
    "getInput": "a name, behind a kernel: `k.getInput(\"x\")`",
    "getOutput": "a name, behind a kernel: `k.getOutput(\"y\")`",
    "addStreamFromCPU": "a name: `addStreamFromCPU(\"x\")`",
    "addStreamToCPU": "a name: `addStreamToCPU(\"y\")`",
}
METHODS = {"newInstance", "cast", "addCounter", "getInput", "getOutput"}  # of the value before the dot
DECLARED = {"boolean": "truth value", "int": "int", "String": "string"}
COUNTS = {0: "no argument", 1: "1 argument"}


class Frame:
    """A call of the evaluator that a refusal came through: its name and what its variables were."""

    def __init__(self, frame):
        self.name, self.module, self.has = frame.f_code.co_name, frame.f_globals["__name__"], frame.f_locals

    def __getitem__(self, name):
        return self.has[name]


def frames_of(fault):
    """The calls that a refusal came through, the innermost one first."""
    return [Frame(frame) for frame, _ in traceback.walk_tb(fault.__traceback__)][::-1]


# Words for values


def type_name(of):
    """A type as a source writes it."""
    if of.kind == "bool":
        return "dfeBool()"
    if of.kind == "fix":
        return f"dfeFix({of.whole}, {of.frac}, SignMode.{'TWOSCOMPLEMENT' if of.signed else 'UNSIGNED'})"
    return f"{'dfeUInt' if of.kind == 'uint' else 'dfeInt'}({of.width})"


def told(value):
    """What a value of the constructor is, in words."""
    if value is running.NOTHING:
        return "nothing"
    if isinstance(value, bool):
        return f"the truth value `{str(value).lower()}`"
    if isinstance(value, (int, str)):
        return f"the int {value}" if isinstance(value, int) else f'the string `"{value}"`'
    if isinstance(value, running.Stream):
        return f"a {'feed' if value.is_feed else 'stream'} of `{type_name(value.of)}`"
    if isinstance(value, Type):
        return f"the type `{type_name(value)}`"
    if isinstance(value, running.Array):
        return f"an array of `{declared_name(value.of)}`"
    if isinstance(value, running.Literal):
        return "a decimal number" if value.tens else "a number that is no `int`"
    if isinstance(value, running.Link):
        return f"an end of a link that stands on the {'left' if value.is_left else 'right'}"
    names = {running.Chain: "a chain of counters", running.Block: "a kernel", running.Handed: "the parameters of the constructor"}
    return names.get(type(value), "another value")


def declared_name(declared):
    base, rank = declared
    return base + "[]" * rank


def listed(values):
    return ", ".join(map(told, values)) or "no argument"


def counted(count):
    return COUNTS.get(count, f"{count} arguments")


def is_stream(*values):
    return any(isinstance(value, running.Stream) for value in values)


def near(name, names):
    """What a name was maybe meant as."""
    found = difflib.get_close_matches(name, [other for other in names if other != name], 1, 0.75)
    return f"; the nearest name is `{found[0]}`" if found else ""


# E1


def known_names(run):
    names = [*run.frame.variables, *run.fields, *run.methods, *running.TYPE_CALLS, *kernel_library.KERNEL_CALLS]
    return [*names, *manager_library.MANAGER_CALLS] if run.is_manager else names


def no_type(frames, values):
    word = frames[0]["node"].word
    return f"`{word}` is no type of the language{near(word, running.BASES)}", [word, "no type"]


def other_arguments(frames, values):
    at = frames[0]
    wanted, given = len(at["params"]), len(at["arguments"])
    said = f"the constructor of `{at['ctor'].word}` has {wanted} parameters, and gets {counted(given)}"
    return said, ["parameters without manager" if given == 1 else "other count"]


def no_variable(frames, values):
    word = frames[0]["node"].word
    return f"no variable or field `{word}` can be set here{near(word, known_names(frames[0]['self']))}", ["undeclared"]


def no_value(frames, values):
    run, node = frames[0]["self"], frames[0]["node"]
    if node.kind == "Name" and node.word == "this":
        return "`this` is no value; it stands in `newInstance(this)` alone", ["this"]
    root, path = run.root(node).word, run.path(node)
    if root in ROOTS:
        return f"`{path}` is no value here{near(path, [*running_modes()])}", [path, "no call"]
    if root == "this":
        return "`this` isn't looked into", ["this"]
    keys = [path, root] if "." in path or path[0].isupper() else []
    return f"`{root}` isn't declared here{near(root, known_names(run))}", [*keys, "undeclared"]


def running_modes():
    return ["SignMode.TWOSCOMPLEMENT", "SignMode.UNSIGNED", "RoundingMode.TRUNCATE", "RoundingMode.TONEAR", "RoundingMode.TONEAREVEN"]


def no_part(frames, values):
    node = frames[0]["node"]
    keys = ["this"] if node.parts[0].word == "this" else [node.word]
    return f"a value has no part `{node.word}`: arrays have `.length`, and no other value has any", keys


def no_object(frames, values):
    word = frames[0]["node"].word
    return f"`new {word}(..)` makes nothing here: kernels are made in `addKernel(..)` of a manager, and nothing else is", [word, "no object"]


def no_call(frames, values):
    word, run = frames[0]["node"].word, frames[0]["self"]
    where = "manager" if run.is_manager else "kernel"
    if word == "addKernel" or word in manager_library.MANAGER_CALLS:
        return f"`{word}` is a call of managers, and this is a kernel", [word, "no call"]
    return f"neither this class nor the library of a {where} has a method `{word}`{near(word, known_names(run))}", [word, "no call"]


def no_library_call(frames, values):
    at, run, node = frames[0], frames[0]["self"], frames[0]["node"]
    if at.has.get("methods") is not None:
        return f"no value has a method `{node.word}`{near(node.word, at['methods'])}", [node.word, "no call"]
    path, root = f"{run.path(node.parts[0])}.{node.word}", run.root(node.parts[0]).word
    if root not in ROOTS:
        return f"neither a variable nor the library has the name `{root}`{near(root, [*known_names(run), *ROOTS])}", [path, root, "undeclared"]
    if run.is_manager:
        return f"`{path}` is no call of managers", [path, "no call"]
    return f"the library has no call `{path}`{near(path, kernel_library.KERNEL_CALLS)}", [path, "no call"]


def call_name(frame):
    """The name of a library's call, as it is written."""
    run, node = frame["self"], frame["node"]
    path = run.path(node.parts[0]) if node.kind == "DotCall" else None
    return f"{path}.{node.word}" if path else node.word


def wrong_count(frames, values):
    name = call_name(frames[0])
    given = len(frames[0]["arguments"]) - (name in METHODS)
    return f"`{name}` gets {counted(given)}; it takes {SIGNATURES[name]}", [name, "other count"]


def wrong_method_count(frames, values):
    wanted, given = len(frames[0]["params"]), len(frames[0]["node"].parts)
    return f"the method `{frames[0]['method'].word}` takes {counted(wanted)}, and gets {counted(given)}", ["other count"]


def wrong_kernel(frames, values):
    at = frames[0]
    if "made" not in at.has:
        return "`addKernel` takes one argument, `new K(makeKernelParameters(name), ..)`", []
    if "settings" not in at.has:
        made = at["made"]
        if made.parts:
            return f"the source has no kernel of the class `{made.word}`{near(made.word, at['run'].kernel_classes)}", [made.word]
        return f"`new {made.word}(..)` needs `makeKernelParameters(name)` as its first argument", []
    return "`makeKernelParameters` takes one argument, the kernel's name", []


# E2


def unfit(frames, values):
    """A value of another type than what it is given to."""
    declared, value, user = frames[0]["declared"], frames[0]["value"], frames[1]
    keys = ["other type"]
    if declared and declared[0] == "DFEVar" and kernel_library.is_number(value):
        keys = ["number to DFEVar"]
    elif declared == ("int", 0) and is_stream(value):
        keys = ["stream to int"]
    if declared is None:
        if user.name == "do_return":
            return f"a method that is `void`, or a constructor, gives no value, and this returns {told(value)}", ["no result"]
        return f"the field's type has no meaning yet, and it gets {told(value)}", keys
    whats = {"bound": "the parameter", "do_return": "the result", "initial": "the variable", "braces": "an element"}
    name = {"initial": "variable", "bound": "param"}.get(user.name)
    word = (frames[2].has.get("node") or frames[2].has.get("member") if name == "variable" else user[name]) if name else None
    what = whats.get(user.name, "what is set here") + (f" `{word.word}`" if word else "")
    return f"{what} is of the type `{declared_name(declared)}`, and gets {told(value)}", keys


def no_truth(frames, values):
    value = frames[0]["value"]
    names = {"do_if": "`if`", "do_while": "`while`", "do_for": "`for`", "on_cond": "`?:`"}
    sign = frames[1]["node"].word if frames[1].name == "on_binary" else None
    where = f"an operand of `{sign}`" if sign else f"the condition of {names[frames[1].name]}"
    keys = [f"{sign} stream" if sign else "condition of a stream"] if is_stream(value) else ["other kind"]
    return f"{where} is {told(value)}, and must be a truth value of the constructor", keys


def no_braces(frames, values):
    return "braces give the elements of an array, and what is set here is none", []


def no_int(frames, values):
    return f"`{frames[0]['node'].word}` changes an `int`, and this is {told(frames[0]['old'])}", []


def no_element(frames, values):
    array, index = frames[0]["array"], frames[0]["index"]
    if not isinstance(array, running.Array):
        return f"`[..]` is of an array, and before it stands {told(array)}", []
    return f"the index of an array is an `int`, and this is {told(index)}", ["stream to int"] if is_stream(index) else []


def wrong_operands(frames, values):
    """Operands that an operator isn't of."""
    at = frames[0]
    sign, a, b = at["sign"], at["a"], at["b"]
    keys = []
    if is_stream(a, b):
        keys = ["shift by stream" if sign in ("<<", ">>") and is_stream(b) else f"{sign} stream"]
        if sign in ("<<", ">>") and not is_stream(b):
            return f"a stream is shifted by an `int`, and this is {told(b)}", keys
    if at.name in ("between_ints", "between_truths") and sign in ("===", "!=="):
        return f"`{sign}` needs a stream, and stands between {told(a)} and {told(b)}; between values of the constructor write `{sign[:2]}`", []
    return f"`{sign}` isn't an operator between {told(a)} and {told(b)}", [*keys, "other kind"]


def wrong_operand(frames, values):
    sign, value = frames[0]["sign"], frames[0]["value"]
    return f"`{sign}` isn't an operator of {told(value)}", ["! stream"] if sign == "!" and is_stream(value) else []


def wrong_choice(frames, values):
    first, second = frames[0]["first"], frames[0]["second"]
    return f"behind a stream `?` chooses between streams or numbers, one of them a stream, and here between {told(first)} and {told(second)}", []


def bare_literal(frames, values):
    return "the value of `?:` is a number that is no `int`, and such a number stands beside a stream alone", []


def no_length(frames, values):
    return "`.length` is of an array, and this is none", []


def no_sizes(frames, values):
    return f"the sizes of an array are `int`s, and these are {listed(frames[0]['sizes'])}", []


def no_special(frames, values):
    name = call_name(frames[0])
    return f"`{name}` takes {SIGNATURES[name]}; something else stands here", [name, "other kinds"]


def wrong_kinds(frames, values):
    """Arguments of a library's call that aren't of its kinds."""
    caller = next(frame for frame in frames if frame.name == "call_library")
    name = call_name(caller)
    given = caller["values"]
    before = f" behind {told(given[0])}" if name in METHODS else ""
    return f"`{name}` takes {SIGNATURES[name]}; here it gets {listed(given[len(before) > 0:])}{before}", [name, "other kinds"]


def wrong_feed(frames, values):
    left, right = frames[0]["left"], frames[0]["right"]
    if not is_stream(left) or not left.is_feed:
        return f"on the left of `<==` stands {told(left)}, and not a feed, which `newInstance(this)` makes", ["no feed"]
    return f"on the right of `<==` stands {told(right)}, and not a stream", ["number to DFEVar"]


def wrong_join(frames, values):
    left, right = frames[0]["left"], frames[0]["right"]
    return f"`<==` joins `getInput` or `addStreamToCPU`, on the left, to `getOutput` or `addStreamFromCPU`; here {told(left)} to {told(right)}", []


def wrong_added(frames, values):
    at = frames[0]
    if "more" in at.has and at.has.get("arguments") is not None:
        return f"behind its first argument a kernel takes `int`s, truth values and types, and here it gets {listed(at['arguments'])}", []
    if "settings" in at.has and at["settings"].kind == "Call" and "name" in at.has:
        return f"the name of a kernel is a string, and this is {told(at['name'])}", []
    return "`addKernel` takes `new K(makeKernelParameters(name), ..)`, and something else stands here", []


# E3


def differing(frames, values):
    """Types that must be one, or a control that has more bits."""
    at = frames[0]
    if at.name == "control":
        wide = next(stream for stream in at["streams"] if not stream.of.is_control)
        return f"the control, or what decides, is of `{type_name(wide.of)}`, and must be of `dfeBool()` or `dfeUInt(1)`", ["control"]
    if at.name == "output":
        return f"the stream is of `{type_name(at['value'].of)}`, and the output of `{type_name(at['of'])}`", ["output type"]
    if at.name == "connect":
        return f"the feed is of `{type_name(at['left'].of)}`, and the stream of `{type_name(at['right'].of)}`", ["two widths"]
    names = list(dict.fromkeys(f"`{type_name(of)}`" for of in at["types"][at.has.get("op") == "mux" :]))
    return f"the operands are of the types {' and '.join(names)}, and must be of one", ["two widths"]


OPERATORS = {"add": "+", "sub": "-", "mul": "*", "div": "/", "neg": "-", "and": "&", "or": "|", "xor": "^", "not": "~", "lt": "<", "le": "<=",
             "gt": ">", "ge": ">=", "shl": "<<", "shr": ">>"}


def no_operation(frames, values):
    at, op = frames[0], values["OPERATION"]
    if at.name == "cast":
        return f"`{type_name(at['value'].of)}` isn't cast to `{type_name(at['of'])}`: a bit is made of one bit alone", ["bit from wide"]
    of = at["of"]
    if op == "cast":
        return f"a decimal number is of `dfeFix` alone, and here it stands for one of `{type_name(of)}`", ["decimal beside whole"]
    if op == "mux":
        return "the selector is signed or of fixed point, and must be of `dfeUInt` or `dfeBool`", []
    keys = [f"{op} of {of.kind}", "shift of fix" if op in ("shl", "shr") else "", "neg of unsigned" if op == "neg" else ""]
    return f"`{OPERATORS.get(op, op)}` ({op}) isn't an operation of `{type_name(of)}`", keys


def wide_product(frames, values):
    return f"a product of `{type_name(frames[0]['of'])}` has operands of {frames[0]['of'].width} bits, and at most 64 are multiplied", []


def no_number(frames, values):
    """A number that isn't one of its type."""
    of = frames[0]["of"]
    low, high = (-(2 ** (of.width - 1)), 2 ** (of.width - 1) - 1) if of.signed else (0, 2**of.width - 1)
    of_fix = f" over 2^{of.frac}" if of.frac else ""
    return f"the number is no value of `{type_name(of)}`, which has {low} to {high}{of_fix}", []


def far_shift(frames, values):
    return f"a stream is shifted by 0 to 127, and here by {values['AMOUNT']}", []


def wrong_options(frames, values):
    selector = frames[0]["types"][0]
    most = min(64, 2**selector.width)
    return f"a selector of `{type_name(selector)}` chooses among 2 to {most} options, and here there are {values['OPTIONS']}", []


RULES = {"1": differing, "2": no_operation, "3": wide_product, "4": no_number, "5": far_shift, "6": wrong_options}


# E4 to E15


def out_of_array(frames, values):
    at = frames[0]
    if at.name == "braces":
        return f"the braces have {len(at['node'].parts)} elements, and an array has at most 65,536", []
    if at.name == "on_newarray":
        return f"the size is {' and '.join(map(str, at['sizes']))}, and each must be 0 to 65,536", ["other size"]
    count = len(at["array"].items)
    return f"the index is {at['index']}, and the array has {count} elements, numbered from 0", ["other index"]


def by_zero(frames, values):
    return "the divisor is 0", []


def not_there(frames, values):
    """Which value is missing."""
    user = next(frame for frame in frames if frame.name not in ("there", "is_true"))
    node = user.has.get("node")
    if user.name == "on_name":
        return f"the variable `{node.word}` isn't set yet", ["unset"]
    if user.name == "on_index":
        return "the element isn't set yet", ["unset"]
    if user.name == "do_set" and "value" not in user.has and node.word != "=":
        return "what is changed here isn't set yet", ["unset"]
    if user.name == "place_of":
        return "the array isn't set yet", ["unset"]
    return "a call stands here that gives no value: a method without `return`, or a call such as `io.output`", ["no value"]


def too_deep(frames, values):
    return f"the method `{frames[0]['method'].word}` is called 65 deep: calls of methods in one another stand at most 64 deep", []


def too_far(frames, values):
    return f"the offset is {values['OFFSET']}, and at most 1,048,576 either way", []


def too_long(frames, values):
    return f"the string has {len(frames[0]['value'])} bytes, and at most 64", []


def bad_name(frames, values):
    name = frames[0].has.get("name")
    return f"`{name}` isn't a letter followed by letters, digits and `_`", []


def nothing_pushed(frames, values):
    return "a rounding mode is popped, and none that was pushed is left", []


def bad_counter(frames, values):
    rule = frames[0]
    if "BITS" in values and "BOUND" in values:
        bound, bits = values["BOUND"], values["BITS"]
        return f"the bound is {bound}, and a counter of {bits} bits has one of 1 to 2^{bits}", []
    if "STEP" in values:
        return f"the step is {values['STEP']}, and must be 1 or more", []
    return f"the counters of the chain would have {values['BITS']} bits in all, and at most 128", []


def bad_bits(frames, values):
    at = frames[0]
    if at.name == "fix_type":
        return f"`dfeFix` with {at['whole']} bits before the point and {at['frac']} behind it: neither is below 0, and both are 1 to 128 bits in all", []
    bits = at.has["bits"] if at.name == "simple_counter" else at["values"][0]
    return f"this asks for {bits} bits, and 1 to 128 are allowed", []


def named_twice(frames, values):
    node = frames[0].has.get("param") or frames[0]["node"]
    return f"`{node.word}` is the name of a parameter or variable that is visible here", []


CAUSES = {
    "E1": {"declared_of": no_type, "run": other_arguments, "place_of": no_variable, "evaluate": no_value, "on_dot": no_part, "on_new": no_object,
           "on_call": no_call, "on_dotcall": no_library_call, "call_library": wrong_count, "call_method": wrong_method_count,
           "add_kernel": wrong_kernel},
    "E2": {"fits": unfit, "is_true": no_truth, "braces": no_braces, "do_set": no_int, "place_of": no_element, "on_index": no_element,
           "between_ints": wrong_operands, "between_truths": wrong_operands, "operator": wrong_operands, "stream_operator": wrong_operands,
           "prefix": wrong_operand, "choose": wrong_choice, "on_cond": bare_literal, "on_dot": no_length, "on_newarray": no_sizes,
           "call_library": no_special, "connect": wrong_feed, "join": wrong_join, "add_kernel": wrong_added},
    "E4": out_of_array, "E5": by_zero, "E6": not_there, "E8": too_deep, "E9": too_far, "E10": too_long, "E11": bad_name, "E12": nothing_pushed,
    "E13": bad_counter, "E14": bad_bits, "E15": named_twice,
}


def cause_of(fault, code, values):
    """The cause of a refusal of the evaluator by a code E, and keys for a hint; or None."""
    frames = frames_of(fault)
    if code == "E3":
        return RULES[fault.line.split()[3]](frames, values)
    cause = CAUSES.get(code)
    if isinstance(cause, dict):
        cause = cause.get(frames[0].name, wrong_kinds if code == "E2" else None)
    return cause and cause(frames, values)
