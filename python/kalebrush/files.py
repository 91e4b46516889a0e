"""Values in files: pictures (PNG, PGM), tables (CSV), arrays of NumPy (.npy), and files of words.

A file may have a part behind `#`: of a picture a channel (`r`, `g`, `b` or `a`), of a table a column. An output with as
many values as a file of inputs gets the shape of that file.
"""
from __future__ import annotations

import csv
import pathlib
import re
from dataclasses import dataclass, field
from typing import Any

import numpy as np

from kalebrush.errors import KalebrushError, ValueRefused
from kalebrush.types import WordType
from kalebrush.words import read_words, write_words

CHANNELS = "rgba"
PICTURES = {".png", ".jpg", ".jpeg", ".bmp", ".gif", ".tif", ".tiff", ".ppm"}
PGM_HEAD = re.compile(rb"P([25])\s(?:\s*#[^\n]*\n)*\s*(\d+)\s(?:\s*#[^\n]*\n)*\s*(\d+)\s(?:\s*#[^\n]*\n)*\s*(\d+)\s")


@dataclass(frozen=True)
class Place:
    """A file, and the part of it that is meant."""

    path: pathlib.Path
    part: str = ""

    @classmethod
    def of(cls, word: str) -> Place:
        """The place that a word of the command line names."""
        name, _, part = word.partition("#")
        return cls(pathlib.Path(name), part)

    @property
    def kind(self) -> str:
        """The end of the file's name."""
        return self.path.suffix.lower()


def read(place: Place, name: str, of: WordType) -> tuple[np.ndarray, tuple[int, ...]]:
    """The values of a file for a port of a name and a type, and their shape."""
    try:
        values = _read(place, name, of)
    except OSError as error:
        raise KalebrushError(f"{place.path} can't be read: {error.strerror or error}") from None
    return values.reshape(-1), values.shape


def _read(place: Place, name: str, of: WordType) -> np.ndarray:
    if place.kind == ".pgm":
        return read_pgm(place.path)
    if place.kind in PICTURES:
        return read_picture(place, of)
    if place.kind == ".csv":
        return read_csv(place, name)
    if place.kind == ".npy":
        return np.load(place.path, allow_pickle=False)
    found, undefined = read_words(place.path, of.width)
    return of.decode(found, undefined if np.any(undefined) else None)


def read_pgm(path: pathlib.Path) -> np.ndarray:
    """The brightness of each point of a PGM file, plain or binary."""
    data = path.read_bytes()
    head = PGM_HEAD.match(data)
    if not head:
        raise ValueRefused(f"{path} is no PGM file")
    wide, high, most = (int(head[k]) for k in (2, 3, 4))
    if head[1] == b"2":
        values = np.array(data[head.end() :].split(), np.uint16 if most > 255 else np.uint8)
    else:
        values = np.frombuffer(data, ">u2" if most > 255 else np.uint8, offset=head.end())
    if values.size < wide * high:
        raise ValueRefused(f"{path} has {values.size} points in place of {wide * high}")
    return values[: wide * high].reshape(high, wide)


def read_picture(place: Place, of: WordType) -> np.ndarray:
    """The points of a picture: a channel, or `0xRRGGBB` where the port has 24 bits or more, else the brightness."""
    image_module = _pillow()
    with image_module.open(place.path) as image:
        if place.part:
            if place.part not in CHANNELS:
                raise ValueRefused(f"{place.path}: a channel is one of {', '.join(CHANNELS)}, and not {place.part}")
            return np.asarray(image.convert("RGBA"))[:, :, CHANNELS.index(place.part)]
        if of.kind == "uint" and of.width >= 24:
            points = np.asarray(image.convert("RGB")).astype(np.uint32)
            return points[:, :, 0] << 16 | points[:, :, 1] << 8 | points[:, :, 2]
        if of.width == 1:
            return np.asarray(image.convert("L")) >= 128
        if image.mode.startswith("I"):
            return np.asarray(image).astype(np.uint16)
        return np.asarray(image.convert("L"))


def read_csv(place: Place, name: str) -> np.ndarray:
    """A column of a table: the one that is named, or else the one of the port's name, or the only one."""
    with open(place.path, newline="", encoding="utf-8") as file:
        rows = [row for row in csv.reader(file) if any(cell.strip() for cell in row)]
    if not rows:
        return np.zeros(0)
    has_head = not all(is_number(cell) for cell in rows[0])
    head = [cell.strip() for cell in rows[0]] if has_head else []
    wanted = place.part or name
    if wanted in head:
        column = head.index(wanted)
    elif place.part or len(rows[0]) > 1:
        raise ValueRefused(f"{place.path} has no column {wanted}: they are {', '.join(head) or 'without names'}")
    else:
        column = 0
    cells = [row[column].strip() for row in rows[has_head:]]
    wrong = next((number for number, cell in enumerate(cells) if not is_number(cell)), None)
    if wrong is not None:
        raise ValueRefused(f"{place.path}: row {wrong + 1} of {wanted} is no number: {cells[wrong]!r}")
    if all(re.fullmatch(r"[+-]?\d+", cell) for cell in cells):
        whole = [int(cell) for cell in cells]
        return np.array(whole, None if all(abs(number) < 2**63 for number in whole) else object)
    return np.array([float(cell) for cell in cells])


def is_number(cell: str) -> bool:
    """Whether a cell of a table is a number."""
    try:
        float(cell)
    except ValueError:
        return False
    return True


def _pillow() -> Any:
    try:
        from PIL import Image
    except ModuleNotFoundError:
        raise KalebrushError("pictures need Pillow (apt install python3-pil); PGM files go without it") from None
    return Image


# writing


@dataclass
class Output:
    """The values of an output, as they go to a file."""

    name: str
    type: WordType
    values: np.ndarray
    words: np.ndarray
    undefined: np.ndarray
    shape: tuple[int, ...] = ()

    def shaped(self, filled: Any = 0) -> np.ndarray:
        """The values in their shape, with something in place of undefined ones."""
        plain = np.ma.getdata(self.values).copy()
        plain[self.undefined] = filled
        return plain.reshape(self.shape or (-1,))


@dataclass
class Writer:
    """Writes outputs to files; the channels of one picture are gathered first."""

    width: int | None = None
    channels: dict[pathlib.Path, dict[str, np.ndarray]] = field(default_factory=dict)

    def write(self, place: Place, output: Output) -> None:
        """Writes an output, or keeps it as a channel until `close`."""
        try:
            self._write(place, output)
        except OSError as error:
            raise KalebrushError(f"{place.path} can't be written: {error.strerror or error}") from None

    def _write(self, place: Place, output: Output) -> None:
        if place.kind == ".csv":
            write_csv(place, output)
        elif place.kind == ".npy":
            np.save(place.path, output.shaped(), allow_pickle=False)
        elif place.kind == ".pgm":
            write_pgm(place.path, self._picture(output), output.type)
        elif place.kind in PICTURES:
            if place.part:
                self.channels.setdefault(place.path, {})[place.part] = _points(
                    self._picture(output), WordType("uint", 8)
                )
            else:
                save_picture(place.path, self._picture(output), output.type)
        else:
            write_words(place.path, output.words, output.type.width, output.undefined)

    def _picture(self, output: Output) -> np.ndarray:
        """The values as lines of a picture."""
        plain = output.shaped()
        if self.width:
            return plain.reshape(-1)[: plain.size // self.width * self.width].reshape(-1, self.width)
        if plain.ndim != 2:
            raise ValueRefused(f"output {output.name} has {plain.size} words and no width: give --width")
        return plain

    def close(self) -> None:
        """Writes the pictures whose channels were gathered."""
        for path, found in self.channels.items():
            names = [name for name in CHANNELS if name in found or name != "a"]
            blank = np.zeros_like(next(iter(found.values())))
            planes = [found.get(name, blank) for name in names]
            _pillow().fromarray(np.dstack(planes), "RGBA" if "a" in found else "RGB").save(path)


def write_csv(place: Place, output: Output) -> None:
    """Writes a column with the name of the output; an undefined value is an empty cell."""
    cells = output.shaped().reshape(-1).tolist()
    with open(place.path, "w", newline="", encoding="utf-8") as file:
        file.write(f"{place.part or output.name}\n")
        for cell, unknown in zip(cells, output.undefined):
            shown = (
                ""
                if unknown
                else int(cell)
                if isinstance(cell, bool)
                else float(cell)
                if output.type.kind == "fix"
                else cell
            )
            file.write(f"{shown}\n" if shown != "" else '""\n')


def _points(picture: np.ndarray, of: WordType) -> np.ndarray:
    """The brightness of each point, of 8 bits, or of 16 where the type has more; values are cut to the range."""
    if picture.dtype == bool:
        return picture.astype(np.uint8) * 255
    most = 65_535 if of.whole > 8 else 255
    return np.clip(np.rint(picture.astype(float)), 0, most).astype(np.uint16 if most > 255 else np.uint8)


def save_picture(path: pathlib.Path, picture: np.ndarray, of: WordType) -> None:
    """Writes a picture: in colours where the type has 24 or 32 whole bits, else in greys."""
    image_module = _pillow()
    if of.kind == "uint" and of.width in (24, 32):
        points = picture.astype(np.uint32)
        planes = [(points >> shift & 255).astype(np.uint8) for shift in (16, 8, 0)]
        image_module.fromarray(np.dstack(planes), "RGB").save(path)
        return
    points = _points(picture, of)
    if points.dtype == np.uint16:
        image_module.frombytes("I;16", points.shape[::-1], points.astype("<u2").tobytes()).save(path)
    else:
        image_module.fromarray(points, "L").save(path)


def write_pgm(path: pathlib.Path, picture: np.ndarray, of: WordType) -> None:
    """Writes a binary PGM file of 8 or 16 bits a point."""
    points = _points(picture, of)
    wide = points.dtype == np.uint16
    head = f"P5\n{points.shape[1]} {points.shape[0]}\n{65_535 if wide else 255}\n".encode()
    path.write_bytes(head + (points.astype(">u2") if wide else points).tobytes())
