#!/usr/bin/env python3
"""Entropy through the reversal: what a coarse view of a gas sees while the gas spreads, is
reversed, and comes back.

Entropy is that of the chances of the directions in blocks of 8 x 8 cells, -H per cell. The gas
itself forgets nothing, so all reversed it comes back and its entropy falls. With one particle of
thousands not reversed, the entropy falls for a while and rises again. "Filled evenly": the entropy
of blocks that are filled at random with the gas's mean density, from the binomial distribution."""
import common
import fhpgas
import numpy as np
import reversal
from equilibrium import h_of
from scipy.stats import binom

SIDE, PARTS, NAMES = 8, 10, ("forwards", "back, all reversed", "back, one not")


def entropy(lattice):
    """The mean over the blocks, per cell."""
    return -h_of(np.moveaxis(lattice.counts(SIDE, SIDE), 0, -1) / SIDE**2).mean()


def highest(lattice):
    """The entropy that a gas of as many particles has if it is filled evenly, at random."""
    directions, numbers = lattice.gas.directions, np.arange(SIDE**2 + 1)
    chances = binom.pmf(numbers, SIDE**2, lattice.particles / lattice.fluid / directions)
    return -directions * chances @ h_of(numbers[:, None] / SIDE**2)


def measured(asked, seed):
    """The entropies [3, time] forwards, back, and back with one particle not reversed, by the
    generation that each state belongs to."""
    there = [*reversal.letter(asked.gas, asked.size, seed).every(asked.generations // PARTS, PARTS)]
    found = [[entropy(lattice) for lattice in there]]
    for lattice in there[-1], reversal.flipped(there[-1]):
        back = lattice.reverse().every(asked.generations // PARTS, PARTS)
        found.append([entropy(each.reverse()) for each in back][::-1])
    return found


def draw(path, asked, times, means, errors, most):
    with common.axes(path, size=(7, 3.8)) as ax:
        for n, (name, at) in enumerate(zip(NAMES, (times, *[2 * times[-1] - times] * 2))):
            ax.errorbar(at, means[n], errors[n], fmt=f"C{n}o-", ms=3, lw=1, label=name)
        ax.axhline(most, color="0.5", lw=1, label="filled evenly")
        ax.axvline(times[-1], color="0.8", lw=1)
        ax.set(xlabel="generations, there and back", ylabel="entropy per cell")
        ax.set_title(f"{asked.gas}, {asked.size} x {asked.size} cells, {asked.seeds} seeds")
        ax.legend(fontsize=8)


@common.experiment
def main():
    figure = "the entropy on the way there, back, and back with one particle not reversed"
    reader = common.Options(figure, common.GASES, seeds=(8, 4))
    reader.option("--size", common.whole(40, 2048), 192, 192, "columns and rows")
    reader.option("--generations", common.whole(PARTS, 10_000), 200, 200, "each way")
    asked = reader.parse_args()
    runs = common.runs(lambda seed: measured(asked, seed), asked)
    means, errors = fhpgas.mean_and_error(runs)
    times = asked.generations // PARTS * np.arange(PARTS + 1)
    print("generation" + "".join(f"{name:>22}" for name in NAMES))
    for n, time in enumerate(times):
        shown = (f"{m:12.4f} +- {e:.4f}" for m, e in zip(means[:, n], errors[:, n]))
        print(f"{time:10}" + "".join(shown))
    most = highest(reversal.letter(asked.gas, asked.size))
    print(f"filled evenly {most:.4f}")
    if asked.picture:
        draw(asked.picture, asked, times, means, errors, most)
