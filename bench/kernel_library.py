"""Operators, and the calls of a kernel's library, as docs/LANGUAGE.md says them."""
import stream_rules
from running import Chain, Entry, Literal, Refusal, Stream, of_kinds
from stream_rules import BIT, LARGEST, OPERATIONS, Broken, Type, cast_of, least_bits, literal_bits, mux_type, operation_type, uint

FARTHEST = 1_048_576


def wrapped(number):
    return (number + 2**31) % 2**32 - 2**31


def is_number(value):
    return type(value) is int or isinstance(value, Literal)


def is_operand(value):
    return isinstance(value, Stream) or is_number(value)


# operators of the host


def quotient(place, a, b):
    if b == 0:
        raise Refusal("E5", place)
    return abs(a) // abs(b) * (1 if (a < 0) == (b < 0) else -1)


def between_ints(sign, place, a, b):
    if sign in ("/", "%"):
        whole = quotient(place, a, b)
        return wrapped(whole) if sign == "/" else a - b * whole
    results = {
        "+": lambda: wrapped(a + b), "-": lambda: wrapped(a - b), "*": lambda: wrapped(a * b),
        "&": lambda: a & b, "|": lambda: a | b, "^": lambda: a ^ b,
        "<<": lambda: wrapped(a << (b % 32)), ">>": lambda: a >> (b % 32),
        "<": lambda: a < b, "<=": lambda: a <= b, ">": lambda: a > b, ">=": lambda: a >= b,
        "==": lambda: a == b, "!=": lambda: a != b,
    }
    if sign not in results:
        raise Refusal("E2", place)
    return results[sign]()


def between_truths(sign, place, a, b):
    results = {"&": a and b, "|": a or b, "^": a != b, "==": a == b, "!=": a != b}
    if sign not in results:
        raise Refusal("E2", place)
    return results[sign]


def operator(run, sign, place, a, b):
    """The value of an operator but `&&` and `||`."""
    if isinstance(a, Stream) or isinstance(b, Stream):
        return stream_operator(run, sign, place, a, b)
    if of_kinds((a, b), int, int):
        return between_ints(sign, place, a, b)
    if of_kinds((a, b), bool, bool):
        return between_truths(sign, place, a, b)
    if sign == "+" and str in (type(a), type(b)) and {type(a), type(b)} <= {str, int}:
        return run.text(f"{a}{b}", place)
    raise Refusal("E2", place)


def prefix(run, sign, place, value):
    if sign == "!":
        if type(value) is not bool:
            raise Refusal("E2", place)
        return not value
    if type(value) is int:
        return wrapped(-value) if sign == "-" else ~value
    if sign == "-" and isinstance(value, Literal) and not value.is_signed:
        return Literal(-value.number, value.tens, True)
    if not isinstance(value, Stream):
        raise Refusal("E2", place)
    return operation(run, place, "neg" if sign == "-" else "not", [value], value.of)


# operations on streams


def operation(run, place, op, values, of, amount=0, type_=operation_type):
    """The stream of an operation on streams and numbers, which become constants of a type."""
    constants, args, types, nodes = [], [], [], run.nodes
    try:
        for value in values:
            if isinstance(value, Stream):
                args.append(value.node)
                types.append(value.of)
                continue
            number, tens = (value, 0) if type(value) is int else (value.number, value.tens)
            constants.append(("constant", literal_bits(run.mode, number, tens, of), of))
            args.append(nodes)
            types.append(of)
            nodes += 1
        result = type_(op, types, amount)
    except Broken as broken:
        raise Refusal("E3", place, *broken.args) from None
    for constant in constants:
        run.make(constant, of)
    return run.make(("operation", op, run.mode, amount, tuple(args), result), result)


def stream_operator(run, sign, place, a, b):
    if sign in ("<<", ">>"):
        if not (isinstance(a, Stream) and type(b) is int):
            raise Refusal("E2", place)
        return operation(run, place, "shl" if sign == "<<" else "shr", [a], a.of, b)
    if not (is_operand(a) and is_operand(b) and sign in OPERATIONS):
        raise Refusal("E2", place)
    of = a.of if isinstance(a, Stream) else b.of
    return operation(run, place, OPERATIONS[sign], [a, b], of)


def mux(run, place, selector, *options):
    streams = [option for option in options if isinstance(option, Stream)]
    if not (isinstance(selector, Stream) and streams and all(map(is_operand, options))):
        raise Refusal("E2", place)

    def type_(op, types, amount):
        return mux_type(types[0], types[1:])

    return operation(run, place, "mux", [selector, *options], streams[0].of, 0, type_)


def choose(run, place, test, first, second):
    """`test ? first : second` with a stream."""
    if not (is_operand(first) and is_operand(second)) or (is_number(first) and is_number(second)):
        raise Refusal("E2", place)
    control(place, test)
    return mux(run, place, test, second, first)


def cast(run, place, value, of):
    if not of_kinds((value, of), Stream, Type):
        raise Refusal("E2", place)
    try:
        op = cast_of(value.of, of)
    except Broken as broken:
        raise Refusal("E3", place, *broken.args) from None
    return operation(run, place, op, [value], value.of, 0, lambda op, types, amount: of)


def control(place, *streams):
    if not all(stream.of.is_control for stream in streams):
        raise Refusal("E3", place, 1)


# ports and other nodes


def input_(run, place, *values):
    if not (of_kinds(values, str, Type) or of_kinds(values, str, Type, Stream)):
        raise Refusal("E2", place)
    name, of, *enable = values
    control(place, *enable)
    run.port_name(name, place)
    return run.make(("input", name, of, enable[0].node if enable else None), of)


def output(run, place, *values):
    if not (of_kinds(values, str, Stream, Type) or of_kinds(values, str, Stream, Type, Stream)):
        raise Refusal("E2", place)
    name, value, of, *enable = values
    if value.of != of:
        raise Refusal("E3", place, 1)
    control(place, *enable)
    run.port_name(name, place)
    run.make(("output", name, value.node, enable[0].node if enable else None, of), of)


def scalar(run, place, *values):
    if not of_kinds(values, str, Type):
        raise Refusal("E2", place)
    name, of = values
    run.port_name(name, place)
    return run.make(("scalar", name, of), of)


def constant(run, place, of, number):
    if not (type(of) is Type and is_number(number)):
        raise Refusal("E2", place)
    value, tens = (number, 0) if type(number) is int else (number.number, number.tens)
    try:
        bits = literal_bits(run.mode, value, tens, of)
    except Broken as broken:
        raise Refusal("E3", place, *broken.args) from None
    return run.make(("constant", bits, of), of)


def offset(run, place, *values):
    if not of_kinds(values, Stream, int):
        raise Refusal("E2", place)
    value, k = values
    if abs(k) > FARTHEST:
        raise Refusal("E9", place, 5, k)
    return run.make(("offset", value.node, k, value.of), value.of)


def simple_counter(run, place, *values):
    if not all(type(value) is int for value in values):
        raise Refusal("E2", place)
    bits, *most = values
    if not 1 <= bits <= LARGEST:
        raise Refusal("E14", place)
    if most and not 1 <= most[0] <= 2**bits:
        raise Refusal("E13", place, 1, most[0], bits)
    last = most[0] - 1 if most else 2**bits - 1
    return run.make(("counter", last, 1, bits), uint(bits))


def make_chain(run, place):
    return Chain(run.make(("chain",), BIT).node)


def add_counter(run, place, *values):
    if not of_kinds(values, Chain, int, int):
        raise Refusal("E2", place)
    chain, most, inc = values
    if most < 1:
        raise Refusal("E13", place, 1, most, 31)
    if inc < 1:
        raise Refusal("E13", place, 2, inc)
    bits = least_bits(most - 1)
    total = run.chain_bits.get(chain.node, 0) + bits
    if total > LARGEST:
        raise Refusal("E13", place, 3, total)
    run.chain_bits[chain.node] = total
    return run.make(("chain counter", chain.node, (most - 1) // inc * inc, inc, bits), uint(bits))


def hold(run, place, *values):
    if not of_kinds(values, Stream, Stream):
        raise Refusal("E2", place)
    value, store = values
    control(place, store)
    return run.make(("hold", value.node, store.node, value.of), value.of)


def new_instance(run, place, of, this):
    if type(of) is not Type:
        raise Refusal("E2", place)
    return run.make(("feed", of), of, True)


def connect(run, place, left, right):
    if not (of_kinds((left, right), Stream, Stream) and left.is_feed):
        raise Refusal("E2", place)
    if left.of != right.of:
        raise Refusal("E3", place, 1)
    run.calls.append(("connect", left.node, right.node))


def push(run, place, mode):
    run.modes.append(mode)


def pop(run, place):
    if not run.modes:
        raise Refusal("E12", place)
    run.modes.pop()


KERNEL_CALLS = {
    "io.input": Entry((2, 3), input_),
    "io.output": Entry((3, 4), output),
    "io.scalarInput": Entry((2,), scalar),
    "constant.var": Entry((2,), constant),
    "stream.offset": Entry((2,), offset),
    "control.mux": Entry(range(1, 1_000_000), mux),
    "control.count.simpleCounter": Entry((1, 2), simple_counter),
    "control.count.makeCounterChain": Entry((0,), make_chain),
    "Reductions.streamHold": Entry((2,), hold),
    "optimization.pushRoundingMode": Entry((1,), push, (0, "mode")),
    "optimization.popRoundingMode": Entry((0,), pop),
}
# the value before the dot is the first argument
KERNEL_METHODS = {"newInstance": Entry((2,), new_instance, (1, "this")), "cast": Entry((2,), cast), "addCounter": Entry((3,), add_counter)}
