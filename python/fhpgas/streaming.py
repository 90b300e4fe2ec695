"""Streaming in numpy, past walls and solid cells, and the state of a lattice before it."""
from __future__ import annotations

from typing import TYPE_CHECKING, Any

import numpy as np

from .arrays import Array, Mask, States
from .gases import Gas

if TYPE_CHECKING:
    from .lattice import Lattice


def streamed(gas: Gas, solid: Mask, values: Array, has_walls: bool = True) -> Array:
    """What becomes of values [direction, y, x] that the particles of a gas carry when they move. A
    wall or a solid cell sends them back, and what a solid cell has stays. Without walls the
    lattice is periodic in y too, and its rows must be even."""
    moved = np.empty_like(values)
    row = np.arange(len(solid))[:, None] + gas.steps[0, gas.opposite, 1][:, None, None]
    is_outside = has_walls & ((row < 0) | (row >= len(solid)))
    for i, back in enumerate(gas.opposite):
        is_sent_back = is_outside[i] | _behind(gas, solid, back)
        came = np.where(is_sent_back, values[back], _behind(gas, values[i], back))
        moved[i] = np.where(solid, values[i], came)
    return moved


def _behind(gas: Gas, cells: Array, direction: int) -> Array:
    """What the neighbour of each cell [y, x] in a direction has."""
    found, y = np.empty_like(cells), np.arange(len(cells))
    for parity, (right, down) in enumerate(gas.steps[:, direction]):
        found[parity::2] = np.roll(cells[(y[parity::2] + down) % len(cells)], -right, 1)
    return found


def collided(self: Lattice) -> States:
    """The states between the collision and the streaming of the next generation: those of `run(1)`,
    whose particles move back along their links.

    Returns
    -------
    array of shape (rows, columns)

    Raises
    ------
    Fault
        As `run` does.

    Examples
    --------
    A head-on pair, which rotates to the left before it moves.

    >>> fhpgas.Lattice([[0, 9, 0]], chirality="left").collided().tolist()
    [[0, 18, 0]]
    """
    gas, shifts = self.gas, np.arange(self.gas.directions, dtype=np.uint8)[:, None, None]
    reversed_: Any = gas.turned[self.run(1).states]
    back = streamed(gas, self.solid, reversed_ >> shifts & 1)
    return gas.turned[(back << shifts).sum(0, dtype=np.uint8)]
