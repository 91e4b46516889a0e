"""Types of words: which values users mean by them, as NumPy arrays."""
from __future__ import annotations

from dataclasses import dataclass
from fractions import Fraction
from typing import Any

import numpy as np

from kalebrush.errors import ValueRefused

EXACT_FLOAT = 53  # bits of a numerator that a float holds exactly
NATIVE = 64  # bits of the widest NumPy integer


@dataclass(frozen=True)
class WordType:
    """A type of words: `uint`, `int`, `fix` or `bool`, with the bits before the point and behind it.

    Arrays of values have these element types: `bool` for `dfeBool()`, the smallest integer of NumPy that fits for
    integers, `float64` for fixed point of up to 53 bits. Wider values are Python objects: `int`, or `Fraction` for
    fixed point.
    """

    kind: str
    whole: int
    frac: int = 0
    signed: bool = False

    @property
    def width(self) -> int:
        """The bits of a word."""
        return self.whole + self.frac

    @property
    def digits(self) -> int:
        """The hexadecimal digits of a word in a file."""
        return (self.width + 3) // 4

    @property
    def lowest(self) -> int:
        """The least numerator."""
        return -(1 << (self.width - 1)) if self.signed else 0

    @property
    def highest(self) -> int:
        """The greatest numerator."""
        return (1 << (self.width - 1 if self.signed else self.width)) - 1

    @property
    def dtype(self) -> np.dtype:
        """The element type of arrays of values."""
        if self.kind == "bool":
            return np.dtype(bool)
        if self.kind == "fix":
            return np.dtype(float if self.width <= EXACT_FLOAT else object)
        size = next((bits for bits in (8, 16, 32, 64) if self.width <= bits), None)
        return np.dtype(f"{'' if self.signed else 'u'}int{size}") if size else np.dtype(object)

    def __str__(self) -> str:
        if self.kind == "bool":
            return "dfeBool()"
        if self.kind == "fix":
            return f"dfeFix({self.whole}, {self.frac}, SignMode.{'TWOSCOMPLEMENT' if self.signed else 'UNSIGNED'})"
        return f"dfe{'Int' if self.signed else 'UInt'}({self.width})"

    # values to words

    def encode(self, values: Any) -> np.ndarray:
        """The words of values: `uint64` up to 64 bits, else Python integers."""
        if np.ma.is_masked(values):
            raise ValueRefused("an input has undefined values")
        array = np.ma.getdata(np.asanyarray(values)).reshape(-1)
        if array.size == 0:
            return np.zeros(0, np.uint64 if self.width <= NATIVE else object)
        numerators = self._numerators(array)
        wrong = (numerators < self.lowest) | (numerators > self.highest)
        if np.any(wrong):
            self._refuse(array, int(np.argmax(wrong)))
        if self.width > NATIVE:
            return np.array([int(number) & ((1 << self.width) - 1) for number in numerators], object)
        return numerators.astype(np.int64 if self.signed else np.uint64).view(np.uint64) & np.uint64(
            (1 << self.width) - 1
        )

    def _numerators(self, array: np.ndarray) -> np.ndarray:
        """The numbers over `2^frac`, as integers, in a type that holds them all."""
        if array.dtype.kind == "b":
            return (
                array.astype(np.int64) << self.frac if self.width < NATIVE else array.astype(object) * (1 << self.frac)
            )
        if self.frac == 0 and array.dtype.kind in "iu":
            return array
        if array.dtype.kind in "iuf" and self.width <= EXACT_FLOAT:
            return self._of_floats(array)
        return np.array([self._of_number(array, place) for place in range(len(array))], object)

    def _of_floats(self, array: np.ndarray) -> np.ndarray:
        scaled = np.ldexp(array.astype(float), self.frac)
        wrong = ~np.isfinite(scaled) | (np.abs(scaled) > 2.0**NATIVE)
        if self.kind != "fix":
            wrong |= scaled != np.rint(scaled)
        if np.any(wrong):
            self._refuse(array, int(np.argmax(wrong)))
        return np.rint(scaled)

    def _of_number(self, array: np.ndarray, place: int) -> int:
        try:
            exact = Fraction(array[place].item() if isinstance(array[place], np.generic) else array[place])
        except (ValueError, TypeError, OverflowError):
            self._refuse(array, place)
        if self.kind != "fix" and exact.denominator != 1:
            self._refuse(array, place)
        return round(exact * (1 << self.frac))

    def _refuse(self, array: np.ndarray, place: int) -> None:
        raise ValueRefused(f"value {array[place]} at index {place} isn't a value of {self}")

    # words to values

    def decode(self, words: np.ndarray, undefined: np.ndarray | None = None) -> np.ndarray:
        """The values of words; with a mask of undefined ones a masked array."""
        values = self._values(np.asarray(words))
        return values if undefined is None else np.ma.MaskedArray(values, mask=undefined)

    def _values(self, words: np.ndarray) -> np.ndarray:
        if self.kind == "bool":
            return words != 0
        if self.width > NATIVE or self.dtype == object:
            numbers = [int(word) for word in words]
            if self.signed:
                numbers = [number - (number >> (self.width - 1) << self.width) for number in numbers]
            if self.frac or self.kind == "fix":
                numbers = [Fraction(number, 1 << self.frac) for number in numbers]
            return np.array(numbers, object) if numbers else np.zeros(0, object)
        words = words.astype(np.uint64)
        if self.signed:
            unused = np.uint64(NATIVE - self.width)
            words = (words << unused).view(np.int64) >> np.int64(unused)
        return np.ldexp(words.astype(float), -self.frac) if self.kind == "fix" else words.astype(self.dtype)
