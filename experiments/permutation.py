#!/usr/bin/env python3
"""A small lattice is a permutation: where all its states go, the cycles on which they return, and
the sums that they keep.

Copies of a lattice, two solid rows or more apart, run side by side, each from another state.
"Return" is the mean time after which a state comes back. "Sums kept" are the independent sums of a
number per direction and cell, where there is a particle, that no state changes in a generation, and
in two, because staggered momenta change their sign."""
import common
import fhpgas
import numpy as np
from scipy.sparse import csr_array
from scipy.sparse.csgraph import connected_components

LATTICES = ["..", "./.", "...", "../.#", "../.."]  # rows of fluid . and solid # cells
COPIES, MOST_BITS, MOST_SMALL = 16_384, 24, 18


class Small:
    """A lattice of a few cells, whose state is a number: the bits of its fluid cells in a row."""

    def __init__(self, asked, drawing):
        self.flow = dict(gas=asked.gas, chirality=asked.chirality)
        self.solid = np.array([[*row] for row in drawing.split("/")]) == "#"
        self.name = "{1} x {0}".format(*self.solid.shape) + (" solid" if "#" in drawing else "")
        self.directions = fhpgas.gas_named(asked.gas).directions
        self.bits = self.directions * np.count_nonzero(~self.solid)

    def parts(self):
        numbers = np.arange(1 << self.bits, dtype=np.int32)
        return np.array_split(numbers, max(1, len(numbers) // COPIES))

    def later(self, numbers):
        (rows, columns), cells = self.solid.shape, np.arange(0, self.bits, self.directions)
        solid = np.ones((len(numbers), rows + 2 + rows % 2, columns), bool)  # begins on even rows
        solid[:, :rows], states = self.solid, np.zeros(solid.shape, np.uint8)
        states[~solid] = (numbers[:, None] >> cells & (1 << self.directions) - 1).ravel()
        flat = (each.reshape(-1, columns) for each in (states, solid))
        after = fhpgas.Lattice(*flat, **self.flow).run(1).states.reshape(solid.shape)[~solid]
        return (after.reshape(len(numbers), -1).astype(np.int32) << cells).sum(1, dtype=np.int32)

    def sums(self, after):
        """How many independent sums over particles are the same in each state and the one after."""
        changes, places = 0, np.arange(self.bits)
        for part in self.parts():
            bits = [(each[:, None] >> places & 1).astype(float) for each in (part, after[part])]
            changes = changes + (bits[1] - bits[0]).T @ (bits[1] - bits[0])
        return self.bits - np.linalg.matrix_rank(changes)


def draw(path, asked, found):
    with common.axes(path, 1, 2) as (left, right):
        name, lengths = found[0]
        for n, (length, number) in enumerate(zip(*np.unique(lengths, return_counts=True))):
            ring = 0.03 * length * np.exp(2j * np.pi * np.arange(length + 1) / length)
            left.plot(n % 4 + ring.real, -(n // 4) + ring.imag, "C0.-", lw=1)
            left.text(n % 4, -(n // 4) - 0.55, f"{number} x {length}", ha="center", fontsize=8)
        left.set_title(f"{asked.gas}, {name}: {len(lengths)} cycles, number x length")
        left.set_axis_off(), left.set_aspect("equal"), left.margins(0.1)
        for name, lengths in found:
            kinds, numbers = np.unique(lengths, return_counts=True)
            share = np.cumsum(kinds * numbers) / lengths.sum()
            right.step(kinds, share, where="post", lw=1, label=name)
        right.set(xlabel="generations", ylabel="share of the states that are back", xscale="log")
        right.legend(fontsize=8)


@common.experiment
def main():
    reader = common.Options("the cycles, and how soon states return", common.GASES)
    reader.option("--chirality", str, *["left"] * 2, "left or right", choices=("left", "right"))
    asked, found = reader.parse_args(), []
    print(f"{asked.gas} {asked.chirality}\ncells          states  one-to-one", end="")
    print("   cycles  longest    return  sums kept: after 1, after 2")
    most, lattices = MOST_SMALL if asked.small else MOST_BITS, (Small(asked, it) for it in LATTICES)
    for lattice in (each for each in lattices if each.bits <= most):
        after = np.concatenate(fhpgas.side_by_side(lattice.later, lattice.parts()))
        is_one_to_one = str((np.bincount(after, minlength=len(after)) == 1).all())
        ways = csr_array((np.ones(len(after), bool), after, np.arange(len(after) + 1)))
        lengths = np.bincount(connected_components(ways)[1])
        mean = (lengths.astype(float) ** 2).sum() / len(after)
        print(f"{lattice.name:11} {len(after):9} {is_one_to_one:>11} {len(lengths):8}", end=" ")
        print(f"{lengths.max():8} {mean:9.1f} {lattice.sums(after):19}", end=" ")
        print(f"{lattice.sums(after[after]):8}", flush=True)
        found.append((lattice.name, lengths))
    if asked.picture:
        draw(asked.picture, asked, found)
