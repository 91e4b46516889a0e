"""Prints the rows of the tests of crates/fix_arith, computed by Python's whole numbers.

Run: python3 bench/vectors_arith.py
"""

import random
from fractions import Fraction
from math import floor

random.seed(2005)
WIDTHS = (1, 8, 64, 65, 127, 128)
MODES = ("Truncate", "ToNear", "ToNearEven")


def value(bits, width, signed):
    return bits - (1 << width) if signed and bits >> (width - 1) else bits


def rounded(mode, exact):
    if mode == "Truncate":
        return floor(exact)
    if mode == "ToNear":
        return floor(exact + Fraction(1, 2))
    return round(exact)  # halves to the even number


def grouped(digits):
    head = len(digits) % 4
    parts = ([digits[:head]] if head else []) + [digits[k : k + 4] for k in range(head, len(digits), 4)]
    return "_".join(parts)


def hexed(n):
    return "0x" + grouped(f"{n:x}")


def optional(n):
    return "None" if n is None else f"Some({hexed(n)})"


def word(bits, width):
    return f"Word::new({hexed(bits)}, {width})"


def operands(width, signed):
    """The least number and -1 for some signed types, and for the others two numbers by chance."""
    if signed and width in (8, 65, 128):
        return 1 << (width - 1), (1 << width) - 1
    return random.getrandbits(width), random.getrandbits(width)


def whole(width, signed, a, b, k):
    m = 1 << width
    x, y = value(a, width, signed), value(b, width, signed)
    quotient = None if y == 0 else (abs(x) // abs(y)) * (-1 if (x < 0) != (y < 0) else 1)
    row = [
        x + y, x - y, x * y, quotient, a & b, a | b, a ^ b, ~a, x << k, x >> k,
        int(x == y), int(x != y), int(x < y), int(x <= y), int(x > y), int(x >= y),
    ]
    return [None if n is None else n % m for n in row]


def print_whole(name, signed):
    print(f"    // {name}: add sub mul div and or xor not shl shr eq ne lt le gt ge")
    for width in WIDTHS:
        for a, b in [operands(width, signed)] + ([(5, 0)] if width == 8 else []):
            k = random.choice([0, 1, width // 2, width, 127])
            found = f"of_{name}({width}, {word(a, width)}, {word(b, width)}, {k})"
            wanted = ", ".join(optional(n) for n in whole(width, signed, a, b, k))
            print(f"        ({found}, [{wanted}]),")


def print_negatives():
    print("    // the opposites")
    for width in WIDTHS:
        for a in (1 << (width - 1), random.getrandbits(width)):
            wanted = -value(a, width, True) % (1 << width)
            print(f"        (opposite({width}, {word(a, width)}), {optional(wanted)}),")


def print_products():
    print("    // products of Fix in the three modes")
    cases = [
        (0, 1, False, 1, 1), (1, 0, True, 1, 1), (4, 4, True, 0x28, 0x38), (4, 4, True, 0xD8, 0x0C),
        (4, 4, False, 0xD8, 0x0C), (0, 8, True, 0x80, 0x80), (8, 0, True, 0x80, 0xFF), (0, 64, False, 2**64 - 1, 2**64 - 1),
        (0, 64, True, 2**63, 2**63), (32, 32, True, 2**63, 2**64 - 1),
        (32, 32, True, random.getrandbits(64), random.getrandbits(64)),
        (60, 4, True, random.getrandbits(64), 8), (63, 1, False, 2**64 - 1, 1),
    ]
    for integer, frac, signed, a, b in cases:
        width = integer + frac
        exact = Fraction(value(a, width, signed) * value(b, width, signed), 1 << frac)
        wanted = ", ".join(optional(rounded(mode, exact) % (1 << width)) for mode in MODES)
        found = f"products({integer}, {frac}, {str(signed).lower()}, {word(a, width)}, {word(b, width)})"
        print(f"        ({found}, [{wanted}]),")


def type_text(t):
    kind, parts = t[0], t[1:]
    if kind == "Fix":
        return f"fix({parts[0]}, {parts[1]}, {str(parts[2]).lower()})"
    return "StreamType::Bool" if kind == "Bool" else f"StreamType::{kind}({parts[0]})"


def type_parts(t):
    kind = t[0]
    if kind == "Fix":
        return t[1] + t[2], t[2], t[3]
    if kind == "Bool":
        return 1, 0, False
    return t[1], 0, kind == "Int"


def print_casts():
    print("    // casts in the three modes")
    cases = [
        (("Fix", 4, 4, True), ("Fix", 4, 0, True), 0x28), (("Fix", 4, 4, True), ("Fix", 4, 0, True), 0x38),
        (("Fix", 4, 4, True), ("Fix", 4, 0, True), 0xD8), (("Bool",), ("Int", 8), 1), (("UInt", 1), ("Bool",), 1),
        (("Fix", 0, 1, True), ("Bool",), 1), (("Int", 8), ("UInt", 128), 0x80), (("Int", 128), ("UInt", 8), 2**127 + 5),
        (("Fix", 0, 128, False), ("UInt", 8), 2**127), (("Fix", 0, 128, False), ("UInt", 8), 2**128 - 1),
        (("Fix", 0, 128, True), ("Int", 8), 2**127), (("Fix", 0, 128, True), ("Int", 8), 2**127 + 1),
        (("Fix", 1, 127, True), ("Int", 64), 3 * 2**126), (("Fix", 1, 127, False), ("UInt", 65), 3 * 2**126),
        (("UInt", 128), ("Fix", 0, 128, False), 2**128 - 1), (("Int", 65), ("Fix", 1, 127, True), 2**64 + 1),
        (("Fix", 63, 2, True), ("Fix", 64, 1, True), 2**65 - 1), (("Fix", 100, 27, True), ("Fix", 60, 3, True), random.getrandbits(127)),
        (("Fix", 64, 64, True), ("Fix", 120, 8, True), random.getrandbits(128)),
        (("Fix", 64, 64, False), ("Fix", 1, 127, False), random.getrandbits(128)),
    ]
    for old, new, a in cases:
        (width, frac, signed), (new_width, new_frac, _) = type_parts(old), type_parts(new)
        exact = Fraction(value(a, width, signed) * (1 << new_frac), 1 << frac)
        wanted = ", ".join(hexed(rounded(mode, exact) % (1 << new_width)) for mode in MODES)
        print(f"        (casts({word(a, width)}, {type_text(old)}, {type_text(new)}), [{wanted}]),")


def print_literals():
    print("    // literals in the three modes")
    cases = [
        (False, 0, 0, ("UInt", 1)), (True, 0, 0, ("Bool",)), (False, 1, 0, ("Bool",)), (False, 2, 0, ("Bool",)),
        (False, 2**128 - 1, 0, ("UInt", 128)), (True, 1, 0, ("UInt", 128)), (True, 128, 0, ("Int", 8)), (False, 128, 0, ("Int", 8)),
        (True, 2**127, 0, ("Int", 128)), (True, 2**127 + 1, 0, ("Int", 128)), (False, 2**127, 0, ("Int", 128)),
        (False, 25, 1, ("Fix", 4, 0, True)), (True, 25, 1, ("Fix", 4, 0, True)), (False, 35, 1, ("Fix", 4, 0, True)),
        (False, 75, 1, ("Fix", 4, 0, True)), (True, 85, 1, ("Fix", 4, 0, True)), (True, 4, 1, ("Fix", 4, 0, False)),
        (False, 314159265358979323846264338327, 29, ("Fix", 2, 126, False)),
        (True, 314159265358979323846264338327, 29, ("Fix", 3, 125, True)),
        (False, 1, 30, ("Fix", 0, 128, False)), (True, 5, 1, ("Fix", 0, 128, True)), (False, 5, 1, ("Fix", 0, 128, True)),
        (False, 10**30 - 1, 30, ("Fix", 0, 1, False)), (False, 2**128 - 1, 0, ("Fix", 127, 1, False)),
        (False, 2**128 - 1, 30, ("Fix", 64, 64, True)), (True, 2**128 - 1, 30, ("Fix", 64, 64, True)),
    ]
    for negative, digits, tens, t in cases:
        width, frac, signed = type_parts(t)
        low, high = (-(1 << (width - 1)), 1 << (width - 1)) if signed else (0, 1 << width)
        exact = Fraction((-digits if negative else digits) << frac, 10**tens)
        numbers = [rounded(mode, exact) for mode in MODES]
        wanted = ", ".join(optional(n % (1 << width) if low <= n < high else None) for n in numbers)
        print(f"        (literals({str(negative).lower()}, {hexed(digits)}, {tens}, {type_text(t)}), [{wanted}]),")


print_whole("uint", False)
print_whole("int", True)
print_negatives()
print_products()
print_casts()
print_literals()
