"""The cells of a lattice as planes of bits, in words of 64 cells [row, plane, word], as
include/fhpgas.h describes them, and what is found of its solid cells once."""
import functools
import itertools
from collections.abc import Iterator
from typing import Any, NamedTuple

import numpy as np

from .arrays import Array, Ints, Mask, States, Words, read_only
from .gases import Gas

CACHED = 1 << 18  # cells whose bits are packed or unpacked at a time
BITS = np.uint64(1), np.uint64(2), np.uint64(4)
# The lower halves of two, four and eight bits, in every byte of a word.
PAIRS, FOURS, EIGHTS = (np.uint64(byte * 0x0101010101010101) for byte in (0x55, 0x33, 0x0F))


def _strips(rows: int, columns: int) -> Iterator[slice]:
    """The rows of a lattice in slices of at most CACHED cells, or of one row."""
    step = max(1, CACHED // columns)
    return (slice(top, top + step) for top in range(0, rows, step))


def packed(states: States, planes: int) -> Words:
    """States [y, x] as planes."""
    rows, columns = states.shape
    words = np.zeros((rows, planes, -(-columns // 64)), np.uint64)
    for strip, plane in itertools.product(_strips(rows, columns), range(planes)):
        bits = np.packbits(states[strip] & np.uint8(1 << plane), axis=1, bitorder="little")
        words[strip, plane].view(np.uint8)[:, : bits.shape[1]] = bits
    return words


def unpacked(words: Words, columns: int) -> States:
    """Planes as states [y, x]."""
    rows, planes, _ = words.shape
    states = np.zeros((rows, columns), np.uint8)
    for strip in _strips(rows, columns):
        part, bytes_ = states[strip], words[strip].view(np.uint8)
        for plane in reversed(range(planes)):
            part += part
            part |= np.unpackbits(bytes_[:, plane], axis=1, count=columns, bitorder="little")
    return states


def block_ones(words: Words, columns: int, width: int, height: int) -> Ints:
    """The ones [plane, row, column] of planes of so many columns in blocks of `width` x `height`
    cells. If blocks begin with bytes, the ones of each byte are counted in the byte, up to 31 rows
    at a time."""
    width, row = min(width, columns), np.arange(len(words)) % height
    tops, lefts = np.flatnonzero(row == 0), np.arange(0, columns, width)
    if width % 8 and width < columns:
        planes = np.ascontiguousarray(np.moveaxis(words, 1, 0)).view(np.uint8)
        bits = (np.unpackbits(plane, 1, columns, "little") for plane in planes)
        added = (np.add.reduceat(each, tops, 0, np.int64) for each in bits)
        return np.stack([np.add.reduceat(each, lefts, 1) for each in added])
    ones = words - (words >> BITS[0] & PAIRS)
    ones = (ones & FOURS) + (ones >> BITS[1] & FOURS)
    ones += ones >> BITS[2]
    ones &= EIGHTS
    few = np.flatnonzero(row % 31 == 0)
    found = _added(ones, few, 0).view(np.uint8).astype(np.int64)
    found = _added(found, np.flatnonzero(row[few] == 0), 0)
    return np.moveaxis(_added(found, lefts // 8, 2), 1, 0)


def _added(values: Array, starts: Array, axis: int) -> Array:
    """The sums from each start to the next along an axis."""
    is_same = len(starts) == values.shape[axis]
    return values if is_same else np.add.reduceat(values, starts, axis)


class Sized:
    """What has arrays, and says how many bytes: so Dask decides what it moves, and what to disk."""

    def __sizeof__(self) -> int:
        arrays = (part for part in vars(self).values() if isinstance(part, np.ndarray))
        return object.__sizeof__(self) + sum(array.nbytes for array in arrays)


class Cells(Sized):
    """The states of cells, which fit their gas, as bytes [y, x], as planes, or as both. The form
    that is not there is made when it is asked for."""

    def __init__(
        self, gas: Gas, states: States | None = None, planes: Words | None = None, shape: Any = ()
    ):
        self.directions, self.shape = gas.directions, shape if states is None else states.shape
        known = {"states": states, "planes": planes}.items()
        vars(self).update({name: read_only(form) for name, form in known if form is not None})

    @functools.cached_property
    def states(self) -> States:
        return read_only(unpacked(self.planes, self.shape[1]))

    @functools.cached_property
    def planes(self) -> Words:
        return read_only(packed(self.states, self.directions))

    @functools.cached_property
    def numbers(self) -> Ints:
        """The numbers of particles by direction."""
        rows, columns = self.shape
        return read_only(block_ones(self.planes, columns, columns, rows)[:, 0, 0])


class Links(NamedTuple):
    """Where particles leave a wall or a solid cell: the number of the word with the particle, its
    bit, the direction, 1 for the upper wall, 2 for the lower one, 3 for a solid cell, and the
    number of that cell."""

    word: Array
    bit: Array
    direction: Array
    kind: Array
    cell: Array


class Walls:
    """The solid cells of a lattice, which all lattices of its run share."""

    def __init__(self, solid: Mask):
        self.solid = read_only(solid)
        self._links = dict[Gas, Links]()

    @functools.cached_property
    def planes(self) -> Words:
        return read_only(packed(self.solid.view(np.uint8), 1))

    @functools.cached_property
    def open(self) -> Words:
        """The plane of the cells that are not solid."""
        return read_only(packed((~self.solid).view(np.uint8), 1))

    @functools.cached_property
    def fluid(self) -> int:
        return self.solid.size - int(np.count_nonzero(self.solid))

    def links(self, gas: Gas) -> Links:
        """All links of a gas."""
        if gas not in self._links:
            parts = [
                _links(self.solid, gas, parity, i)
                for parity in range(min(2, len(self.solid)))
                for i in np.flatnonzero(gas.velocities.any(1)).tolist()
            ]
            self._links[gas] = Links(*map(np.concatenate, zip(*parts)))
        return self._links[gas]


def _links(solid: Mask, gas: Gas, parity: int, direction: int) -> Links:
    """The links of the rows of a parity and a direction."""
    rows, columns = solid.shape
    right, down = gas.steps[parity, gas.opposite[direction]]
    kinds = np.pad(3 * solid.view(np.uint8), ((1, 1), (0, 0)))
    kinds[0], kinds[-1] = 1, 2
    y = np.arange(parity, rows, 2)
    behind = np.roll(kinds[y + down + 1], -right, axis=1)
    row, x = np.nonzero(behind * ~solid[y])
    y, kind = y[row], behind[row, x]
    cell = np.where(kind == 3, (y + down) * columns + (x + right) % columns, 0)
    word = (y * gas.directions + direction) * -(-columns // 64) + x // 64
    return Links(word, (x % 64).astype(np.uint64), np.full(len(x), direction), kind, cell)
