"""The types of streams and the rules of their operations, as docs/LANGUAGE.md says them."""
from dataclasses import dataclass

LARGEST = 128
OPERATIONS = {
    "+": "add", "-": "sub", "*": "mul", "/": "div", "&": "and", "|": "or", "^": "xor",
    "===": "eq", "!==": "ne", "<": "lt", "<=": "le", ">": "gt", ">=": "ge",
}
COMPARISONS = {"eq", "ne", "lt", "le", "gt", "ge"}


@dataclass(frozen=True)
class Type:
    """`uint`, `int`, `fix` or `bool`, with the bits before the point and behind it."""

    kind: str
    whole: int
    frac: int = 0
    signed: bool = False

    @property
    def width(self):
        return self.whole + self.frac

    @property
    def is_control(self):
        return self.kind == "bool" or (self.kind == "uint" and self.width == 1)

    def has(self, number):
        """Whether a number, or the numerator of one, is one of the type's."""
        if self.signed:
            return -(2 ** (self.width - 1)) <= number < 2 ** (self.width - 1)
        return 0 <= number < 2**self.width


BIT = Type("bool", 1)


def uint(bits):
    return Type("uint", bits)


def int_(bits):
    return Type("int", bits, 0, True)


class Broken(Exception):
    """A rule of types: its number, and what is told of it."""


def rounded(mode, over, under):
    """The whole number for a quotient."""
    if mode == "TRUNCATE":
        return over // under
    near = (2 * over + under) // (2 * under)
    tie = (2 * over + under) % (2 * under) == 0
    return near - 1 if mode == "TONEAREVEN" and tie and near % 2 else near


def literal_bits(mode, number, tens, of):
    """The bits of the constant of a type for a number over ten to the tens."""
    if of.kind != "fix" and tens > 0:
        raise Broken(2, "cast")
    numerator = rounded(mode, number * 2**of.frac, 10**tens)
    if not of.has(numerator):
        raise Broken(4)
    return numerator % 2**of.width


def takes(op, of):
    """Whether an operation is one of a type."""
    whole = of.kind in ("uint", "int")
    if op in ("add", "sub", "mul", "lt", "le", "gt", "ge"):
        return whole or of.kind == "fix"
    if op in ("div", "shl", "shr"):
        return whole
    if op == "neg":
        return of.signed
    if op in ("and", "or", "xor", "not"):
        return whole or of.kind == "bool"
    return op in ("eq", "ne")


def operation_type(op, types, amount):
    """The type of the result of an operation on operands of these types, but of casts and multiplexers."""
    if any(of != types[0] for of in types):
        raise Broken(1)
    if not takes(op, types[0]):
        raise Broken(2, op)
    if op == "mul" and types[0].kind == "fix" and types[0].width > 64:
        raise Broken(3)
    if op in ("shl", "shr") and not 0 <= amount <= 127:
        raise Broken(5, amount)
    return BIT if op in COMPARISONS else types[0]


def mux_type(selector, options):
    """The type of a multiplexer."""
    if any(of != options[0] for of in options):
        raise Broken(1)
    if selector.kind not in ("uint", "bool"):
        raise Broken(2, "mux")
    if not 2 <= len(options) <= min(64, 2**selector.width):
        raise Broken(6, len(options))
    return options[0]


def cast_of(old, new):
    """The operation that makes a word of one type a word of the other."""
    op = "round" if new.frac < old.frac else "cast"
    if new.kind == "bool" and old.width != 1:
        raise Broken(2, op)
    return op


def least_bits(number):
    return max(1, number.bit_length())
