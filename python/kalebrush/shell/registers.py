"""The registers of the shell: 32 bits each, by address in bytes."""
from __future__ import annotations

from dataclasses import dataclass

from kalebrush.shell.top import TICK_BITS, Scalar, Top

CONTROL, STATUS, CYCLES, HOLD, FIRST = 0x00, 0x04, 0x08, 0x10, 0x20
WORD = 32


@dataclass(frozen=True)
class Register:
    """A value that a host writes before a run: the net that holds it, its bits, and the address of its lowest word."""

    net: str
    told: str
    width: int
    address: int

    @property
    def words(self) -> int:
        """How many words of 32 bits it takes."""
        return (self.width + WORD - 1) // WORD

    def parts(self) -> list[tuple[int, int, int]]:
        """(address, low bit, high bit) of each word."""
        found = []
        for number in range(self.words):
            low = WORD * number
            found.append((self.address + 4 * number, low, min(low + WORD, self.width) - 1))
        return found


@dataclass
class Map:
    """All registers that a host writes, and the bits of an address."""

    values: list[Register]
    address_bits: int

    def of(self, net: str) -> Register:
        """The register of a net."""
        return next(register for register in self.values if register.net == net)


def scalar_net(number: int, scalar: Scalar) -> str:
    """The net that holds a scalar; the number keeps two of them apart, whatever their names."""
    return f"scalar{number}_{scalar.kernel}_{scalar.name}"


def map_of(top: Top) -> Map:
    """The registers of a design: two words for the ticks of each kernel, and then the scalars."""
    values, at = [], FIRST
    for kernel in top.kernels:
        values.append(Register(f"ticks_{kernel}", f"ticks of {kernel}", TICK_BITS, at))
        at += 4 * values[-1].words
    for number, scalar in enumerate(top.scalars):
        values.append(
            Register(scalar_net(number, scalar), f"scalar {scalar.name} of {scalar.kernel}", scalar.width, at)
        )
        at += 4 * values[-1].words
    return Map(values, max(6, (at - 1).bit_length()))
