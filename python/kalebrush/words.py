"""Files of words: one a line, in hexadecimal digits, `x` for each digit of an undefined one."""
from __future__ import annotations

import pathlib

import numpy as np

from kalebrush.errors import ValueRefused
from kalebrush.types import NATIVE

DIGITS = np.frombuffer(b"0123456789abcdef", np.uint8)
VALUES = np.full(256, 255, np.uint8)
for _place, _digit in enumerate(b"0123456789abcdef"):
    VALUES[_digit] = _place
for _place, _digit in enumerate(b"ABCDEF"):
    VALUES[_digit] = 10 + _place


def write_words(path: pathlib.Path, words: np.ndarray, width: int, undefined: np.ndarray | None = None) -> None:
    """Writes words of a width, and an `x` for each digit of an undefined one."""
    path.write_bytes(text_of(words, width, undefined))


def text_of(words: np.ndarray, width: int, undefined: np.ndarray | None = None) -> bytes:
    """The text of a file of words."""
    digits = (width + 3) // 4
    table = np.full((len(words), digits + 1), ord("\n"), np.uint8)
    if width <= NATIVE:
        rest = words.astype(np.uint64)
        for place in range(digits):
            shift = np.uint64(4 * (digits - 1 - place))
            table[:, place] = DIGITS[(rest >> shift).astype(np.uint8) & 15]
    else:
        joined = "".join(f"{int(word):0{digits}x}" for word in words).encode()
        table[:, :digits] = np.frombuffer(joined, np.uint8).reshape(len(words), digits)
    if undefined is not None:
        table[np.asarray(undefined, bool), :digits] = ord("x")
    return table.tobytes()


def read_words(path: pathlib.Path, width: int) -> tuple[np.ndarray, np.ndarray]:
    """The words of a file, and which of them are undefined."""
    return words_of(path.read_bytes(), width, str(path))


def words_of(text: bytes, width: int, name: str = "the words") -> tuple[np.ndarray, np.ndarray]:
    """The words of the text of a file, and which of them are undefined."""
    digits = (width + 3) // 4
    data = np.frombuffer(text, np.uint8)
    if len(data) % (digits + 1) == 0 and np.all(data[digits :: digits + 1] == ord("\n")):
        table = data.reshape(-1, digits + 1)[:, :digits]
        undefined = np.all(table == ord("x"), axis=1)
        values = VALUES[table]
        if not np.any((values == 255) & ~undefined[:, None]):
            values[undefined] = 0
            return _joined(values, width), undefined
    return _line_by_line(text, width, name)


def _joined(values: np.ndarray, width: int) -> np.ndarray:
    """Words from their digits, the highest first."""
    if width > NATIVE:
        marks = DIGITS[values].tobytes().decode()
        size = values.shape[1]
        return _checked(
            np.array([int(marks[at : at + size], 16) for at in range(0, len(marks), size)], object), width, "the words"
        )
    words = np.zeros(len(values), np.uint64)
    for place in range(values.shape[1]):
        words = (words << np.uint64(4)) | values[:, place].astype(np.uint64)
    return _checked(words, width, "the words")


def _checked(words: np.ndarray, width: int, name: str) -> np.ndarray:
    """The words, none of which may have more bits than the width."""
    if width % 4:
        high = np.array([int(word) >> width for word in words]) if width > NATIVE else words >> np.uint64(width)
        if np.any(high):
            raise ValueRefused(f"{name}: line {int(np.argmax(high != 0)) + 1} has more than {width} bits")
    return words


def _line_by_line(text: bytes, width: int, name: str) -> tuple[np.ndarray, np.ndarray]:
    words, undefined = [], []
    for number, line in enumerate(text.decode("ascii", "replace").splitlines(), 1):
        is_undefined = bool(line) and set(line) == {"x"}
        try:
            word = 0 if is_undefined else int(line, 16)
        except ValueError:
            raise ValueRefused(f"{name}: line {number} is no word: {line[:40]!r}") from None
        if word >> width:
            raise ValueRefused(f"{name}: line {number} has more than {width} bits")
        words.append(word)
        undefined.append(is_undefined)
    dtype = np.uint64 if width <= NATIVE else object
    return np.array(words, dtype), np.array(undefined, bool)
