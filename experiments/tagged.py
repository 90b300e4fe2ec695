#!/usr/bin/env python3
"""A tagged particle: how long it remembers its velocity, and how it diffuses.

It leaves a cell as any of the particles that leave, each with the same chance. One run has the mean
over all its ways, for all particles (D. Frenkel, M. H. Ernst, Phys. Rev. Lett. 63 (1989) 2165, from
memory): each carries a velocity, at first its own, a collision shares out what a cell has evenly,
and it moves as the particles do. C(t) is the mean of c times what is carried, over its start. All
begin so far from the walls that none gets there. Boltzmann: C = kappa^t and D = c_s^2 (1 / (1 -
kappa) - 1 / 2). Tail: C = sqrt(3) (1 - d) / (16 pi b d (D + viscosity) t), with Boltzmann's D and
the viscosity with pairs (docs/DERIVATION.md#10-the-long-time-tail)."""
import common
import fhpgas
import numpy as np
from fhpgas import theory
from fhpgas.streaming import streamed


def kept(gas, d):
    """The share of its velocity that a particle keeps in a collision, if the others are random."""
    alone = (1 - (1 - d) ** gas.directions) / (gas.directions * d)  # the mean of 1 / number
    return alone - (1 - alone) / (gas.directions - 1)


def remembered(asked, gas, seed):
    """C at the generations 0, 1, .. `asked.until`."""
    edge, flow = asked.until, dict(gas=gas, chirality=asked.chirality, seed=seed)
    size = fhpgas.Size(asked.columns, asked.rows + 2 * edge)
    lattice, velocities = fhpgas.draw_gas(asked.filling, size=size, **flow), gas.velocities @ [
        1,
        1j,
    ]
    particles = lambda states: np.moveaxis(gas.bits[states], -1, 0)
    carried = velocities.astype(np.complex64)[:, None, None] * particles(lattice.states)
    carried[:, :edge] = carried[:, -edge:] = 0
    found = []
    for _ in range(edge + 1):
        found.append((velocities.conj() @ carried.sum((1, 2), np.complex128)).real)
        shares = carried.sum(0) / np.maximum(1, gas.number[lattice.states]).astype(np.float32)
        carried = streamed(gas, lattice.solid, particles(lattice.collided()) * shares)
        lattice = lattice.run(1)
    return np.array(found) / found[0]


def draw(path, asked, runs, kappa, tail):
    times, (mean, error) = np.arange(1, asked.until + 1), fhpgas.mean_and_error(runs)
    with common.axes(path) as ax:
        ax.errorbar(times, times * mean[1:], times * error[1:], fmt="C0.", label="measured")
        ax.plot(times, times * kappa**times, "C1", lw=1, label="Boltzmann")
        ax.axhline(tail, color="C2", lw=1, label="tail")
        ax.set(xlabel="generations t", ylabel="t C(t)", xscale="log", ylim=(0, 4 * tail))
        ax.set_title(f"{asked.gas} {asked.chirality}, d = {asked.filling}, {asked.seeds} seeds")
        ax.legend(fontsize=8)


@common.experiment
def main():
    reader = common.Options("t C(t)", common.FLUIDS, seeds=(8, 4))
    reader.chirality()
    reader.filling(0.05, 0.6, 0.3)
    reader.option("--until", common.whole(16, 500), 100, 32, "generations")
    reader.option("--columns", common.whole(16, 65536), 512, 256, "columns")
    reader.option("--rows", common.whole(16, 65536), 256, 192, "rows in which particles begin")
    asked = reader.parse_args()
    gas, d = fhpgas.gas_named(asked.gas), asked.filling
    kappa, square = kept(gas, d), theory.sound_speed(gas) ** 2
    spread = square * (1 / (1 - kappa) - 1 / 2)
    viscosity = theory.pair_viscosity(gas, d, 60, asked.chirality, size=120)[-1]
    tail = 3**0.5 * (1 - d) / (16 * np.pi * gas.directions * d * (spread + viscosity))
    runs = np.array(common.runs(lambda seed: remembered(asked, gas, seed), asked))
    for time in 1, 2, 5:
        common.compare(f"C after {time} and Boltzmann", runs[:, time], kappa**time, 5)
    for time in (asked.until // 4, asked.until // 2, asked.until):
        near = np.arange(time * 3 // 4, time + 1)
        common.compare(f"t C, mean up to {time}, tail", (near * runs[:, near]).mean(1), tail, 5)
    sums = square * (runs.sum(1) - 1 / 2)
    common.compare(f"D up to {asked.until} and Boltzmann", sums, spread, 4)
    if asked.picture:
        draw(asked.picture, asked, runs, kappa, tail)
