"""Values, refusals and the calls that give types, as docs/LANGUAGE.md says them."""
from dataclasses import dataclass

from stream_rules import BIT, LARGEST, Type, int_, uint

NOTHING = None
BASES = {
    "int", "boolean", "String", "DFEVar", "DFEType", "CounterChain", "KernelBlock", "DFELink", "KernelParameters", "EngineParameters"
}


class Refusal(Exception):
    """A code with what is told behind it."""

    def __init__(self, code, *values):
        super().__init__(code)
        self.line = " ".join(["refused", code, *map(str, values)])


@dataclass(frozen=True)
class Stream:
    node: int
    of: Type
    is_feed: bool = False


@dataclass(frozen=True)
class Chain:
    node: int


@dataclass
class Array:
    """The type of the elements, and these."""

    of: tuple
    items: list


@dataclass(frozen=True)
class Literal:
    """A wide or decimal literal: its digits as a number, below 0 or not, over ten to the tens."""

    number: int
    tens: int
    is_signed: bool = False


@dataclass(frozen=True)
class Handed:
    """What the first parameter of a constructor has."""

    base: str


@dataclass(frozen=True)
class Block:
    number: int


@dataclass(frozen=True)
class Link:
    end: tuple
    is_left: bool


PARAMETERS = Handed("KernelParameters")
ENGINE = Handed("EngineParameters")
PLAIN = {int: "int", bool: "boolean", str: "String", Stream: "DFEVar", Type: "DFEType", Chain: "CounterChain", Block: "KernelBlock", Link: "DFELink"}


def declared_by(value):
    """The type of the variables that take a value: its base, and how many arrays deep; None for a literal."""
    if isinstance(value, Array):
        return (value.of[0], value.of[1] + 1)
    if isinstance(value, Handed):
        return (value.base, 0)
    return (PLAIN[type(value)], 0) if type(value) in PLAIN else None


def declared_of(node):
    """The type that a part of the source says."""
    rank = 0
    while node.kind == "ArrayOf":
        node, rank = node.parts[0], rank + 1
    if node.word not in BASES:
        raise Refusal("E1", node.place)
    return (node.word, rank)


def of_kinds(values, *kinds):
    """Whether values are of these kinds, one by one."""
    return len(values) == len(kinds) and all(type(value) is kind for value, kind in zip(values, kinds))


@dataclass
class Entry:
    """A call of the library: how many arguments it takes, what is done with their values, and which argument (from 0) is a
    `sign`, a `mode` or `this`."""

    counts: tuple
    done: object
    special: tuple = None


def width_type(type_):
    def done(run, place, *values):
        if not of_kinds(values, int):
            raise Refusal("E2", place)
        if not 1 <= values[0] <= LARGEST:
            raise Refusal("E14", place)
        return type_(values[0])

    return done


def fix_type(run, place, whole, frac, signed):
    if not of_kinds((whole, frac), int, int):
        raise Refusal("E2", place)
    if whole < 0 or frac < 0 or not 1 <= whole + frac <= LARGEST:
        raise Refusal("E14", place)
    return Type("fix", whole, frac, signed)


TYPE_CALLS = {
    "dfeUInt": Entry((1,), width_type(uint)),
    "dfeInt": Entry((1,), width_type(int_)),
    "dfeBool": Entry((0,), lambda run, place: BIT),
    "dfeFix": Entry((3,), fix_type, (2, "sign")),
}
