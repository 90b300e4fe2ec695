#!/usr/bin/env python3
"""The approach to equilibrium: how fast collisions fill the directions of a gas as Fermi and Dirac
say.

The particles of the directions are counted in the rows that the walls have not reached yet, and
compared with the Boltzmann equation of a uniform gas and with 1 / (1 + exp(h + q.c)) of the same
density and momentum. H is the sum of N ln N + (1 - N) ln (1 - N)."""
import common
import fhpgas
import numpy as np
from fhpgas import boltzmann
from scipy.special import xlogy

GENERATIONS = 0, 1, 2, 4, 8, 16, 32, 64
START = (0.6, 0, 0.3, 0, 0.3, 0, 0.2), (0.6, 0.1, 0.2, 0.1, 0.3)  # on the square lattice the second


def drawn(gas, chances, size, seed, chirality="seeded"):
    """A lattice whose directions are filled with these chances, alike in all cells."""
    lots, states = np.random.PCG64(seed), np.zeros(size[::-1], np.uint8)
    for i, chance in enumerate(chances):
        is_filled = lots.random_raw(states.size) < np.uint64(chance * 2**64)
        states |= is_filled.reshape(states.shape).astype(np.uint8) << i
    return fhpgas.Lattice(states, gas=gas, chirality=chirality, seed=seed)


def filled(asked, start, seed):
    """The chances of the directions at GENERATIONS, in the rows that the walls have not reached."""
    size, found, edge = fhpgas.Size(asked.size, asked.size), [], GENERATIONS[-1]
    lattice = drawn(asked.gas, start, size, seed)
    for generation in GENERATIONS:
        lattice = lattice.run(generation - lattice.generation)
        inner = lattice.states[edge:-edge]
        found.append(np.bincount(inner.ravel(), minlength=128) @ lattice.gas.bits / inner.size)
    return found


def h_of(chances):
    return (xlogy(chances, chances) + xlogy(1 - chances, 1 - chances)).sum(-1)


def draw(path, gas, means, errors, theory, names):
    times = np.arange(len(theory))
    with common.axes(path, 1, 2) as (left, right):
        for i, name in enumerate(names):
            left.plot(times, theory[:, i], f"C{i}", lw=1)
            left.errorbar(GENERATIONS, means[:, i], errors[:, i], fmt=f"C{i}o", ms=3, label=name)
        left.set(xlabel="generations", ylabel="chance of a direction", xscale="symlog")
        left.set_title(f"{gas}: points measured, lines Boltzmann")
        right.plot(times, h_of(theory), "C1", lw=1, label="Boltzmann")
        right.plot(GENERATIONS, h_of(means), "C0o", ms=3, label="measured")
        right.set(xlabel="generations", ylabel="H per cell", xscale="symlog", title="H falls")
        left.legend(fontsize=8, ncols=2), right.legend()


@common.experiment
def main():
    reader = common.Options("the directions and H over time", common.GASES, seeds=(8, 8))
    reader.option("--size", common.whole(160, 4096), 1024, 192, "columns and rows")
    asked = reader.parse_args()
    gas = fhpgas.gas_named(asked.gas)
    start = np.array(START[gas.is_square][: gas.directions])
    runs = common.runs(lambda seed: filled(asked, start, seed), asked)
    means, errors = fhpgas.mean_and_error(runs)
    flow = boltzmann.Flow(gas, np.zeros((2, 1)), has_walls=False)
    chances = np.resize(start, (2, gas.directions)).T[..., None]
    theory = np.array([*flow.every(chances, 1, GENERATIONS[-1])])[..., 0, 0]
    names = ("E N W S rest" if gas.is_square else "E NE NW W SW SE rest").split()[: gas.directions]
    print("generation" + "".join(f"{name:>8}" for name in names) + "       H   H of Boltzmann")
    for generation, numbers in zip(GENERATIONS, means):
        print(f"{generation:10}" + "".join(f"{n:8.4f}" for n in numbers), end="")
        print(f"{h_of(numbers):9.4f}{h_of(theory[generation]):12.4f}")
    velocity = gas.velocities.T @ start / start.sum()
    for i, chance in enumerate(fhpgas.equilibrium(gas, start.mean(), *velocity)):
        common.compare(f"direction {i} and Fermi-Dirac", [run[-1][i] for run in runs], chance, 4)
    if asked.picture:
        draw(asked.picture, gas, means, errors, theory, names)
