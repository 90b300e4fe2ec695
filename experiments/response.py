#!/usr/bin/env python3
"""Response: the viscosity of a gas at rest, from a uniform stress that decays, beside the pair
closure.

The directions of a gas without momentum are filled with d (1 + SHARE s), where s = 1 to the
north-east and south-west, -1 to the north-west and south-east. By Green and Kubo the share of this
stress that is left after t generations is C(t), and the viscosity (1/2 + C(1) + .. + C(t)) / 4. It
is measured in the rows that the walls have not reached, after EACH generations in each `--step`-th.
Boltzmann's equation begins with the same chances. "Above it" is measured / Boltzmann - 1 in
percent, "pairs" the same of the closure (`fhpgas.theory.pair_viscosity`). With `--triples` three
particles at equal angles collide with this chance: the others are reversed before it, and so
back."""
import common
import fhpgas
import numpy as np
from equilibrium import drawn
from fhpgas import boltzmann, theory

SHARE, EACH = 0.3, 64


class Stress:
    """The stress of a filling, and its share that is left over time."""

    def __init__(self, asked, filling):
        self.asked, self.gas, self.filling = asked, fhpgas.gas_named(asked.gas), filling
        self.of_direction = np.sign(self.gas.velocities.prod(1))
        self.until = max(asked.until)
        late = range(EACH + asked.step, self.until, asked.step)
        self.times = [*range(min(EACH, self.until - 1) + 1), *late, self.until]

    def chances(self, share):
        return self.filling + share * min(self.filling, 1 - self.filling) * self.of_direction

    def measured(self, seed):
        until, found = self.until, []
        size = fhpgas.Size(self.asked.width, self.asked.height + 2 * until)
        lattice = drawn(self.gas, self.chances(SHARE), size, seed, self.asked.chirality)
        lots = np.random.default_rng((seed, 1))  # no bits that the gas has
        for time in self.times:
            lattice = self.later(lattice, time - lattice.generation, lots)
            inner = lattice.states[until:-until]
            numbers = [np.count_nonzero(inner & 1 << i) for i in range(self.gas.directions)]
            found.append(self.of_direction @ numbers)
        return theory.running_viscosity(np.interp(range(until + 1), self.times, found))

    def later(self, lattice, generations, lots):
        """A later lattice. Before each generation those triples reverse that must not collide."""
        if self.asked.triples == 1:
            return lattice.run(generations)
        for _ in range(generations):
            states = lattice.states.copy()
            triples = np.flatnonzero(np.isin(states & 63, boltzmann.TRIPLES))
            states.reshape(-1)[triples[lots.random(len(triples)) >= self.asked.triples]] ^= 63
            lattice = lattice.replace(states=states).run(1)
        return lattice

    def predicted(self, share):
        """The viscosity of Boltzmann's equation that begins with this share."""
        chances = np.resize(self.chances(share), (2, self.gas.directions)).T[..., None]
        flow = boltzmann.Flow(self.gas, np.zeros((2, 1)), self.asked.chirality, has_walls=False)
        states = flow.every(chances, 1, self.until)
        return theory.running_viscosity([self.of_direction @ each[:, 0, 0] for each in states])

    def excess_of_pairs(self):
        """Percent by which the pair closure exceeds Boltzmann's equation, for a weak stress."""
        flow = self.gas, self.filling, self.until, self.asked.chirality, self.asked.triples
        found = theory.pair_viscosity(*flow, size=self.asked.box or 2 * self.until)
        return 100 * (found / self.predicted(1e-4) - 1)


def draw(path, asked, found):
    with common.axes(path, size=(7, 4)) as ax:
        for n, (stress, runs, same, pairs) in enumerate(found):
            mean, error = (100 * each / same for each in fhpgas.mean_and_error(runs))
            times = np.arange(1, len(mean))
            ax.errorbar(times, mean[1:] - 100, error[1:], fmt=f"C{n}.", lw=0.5, ms=3)
            ax.plot(times, pairs[1:], f"C{n}", lw=1, label=f"d = {stress.filling}")
        ax.set(xlabel="generations", ylabel="excess over Boltzmann, percent", xscale="log")
        ax.set_title(f"{asked.gas} {asked.chirality}, points measured, lines pairs")
        ax.legend(fontsize=8)


@common.experiment
def main():
    reader = common.Options("the viscosity up to each generation", common.FLUIDS, seeds=(16, 4))
    reader.chirality()
    reader.fillings([0.3])
    text = "generations up to which it is summed, one or more"
    reader.option("--until", common.whole(4, 2000), [60], [20], text, metavar="T")
    text = "the chance that three particles at equal angles collide"
    reader.option("--triples", common.number(0, 1), 1.0, 1.0, text, metavar="P")
    reader.option("--width", common.whole(16, 65536), 2048, 1024, "columns")
    reader.option("--height", common.whole(16, 65536), 1024, 512, "rows without those near walls")
    after = f"generations from sample to sample after the first {EACH}"
    reader.option("--step", common.whole(1, 100), 1, 1, after, metavar="N")
    text = "cells across the box of the pair closure, 0: twice the largest T"
    reader.option("--box", common.whole(0, 2048), 0, 0, text)
    asked, found = reader.parse_args(), []
    print(f"{asked.gas} {asked.chirality}, triples {asked.triples:g}")
    print("   d until   measured         Boltzmann  above it       pairs", flush=True)
    for stress in (Stress(asked, filling) for filling in asked.filling):
        runs = common.runs(stress.measured, asked)
        same, pairs = stress.predicted(SHARE), stress.excess_of_pairs()
        mean, error = fhpgas.mean_and_error(runs)
        for t in asked.until:
            print(f"{stress.filling:4} {t:5} {mean[t]:8.4f} +- {error[t]:.4f}", end="   ")
            above = 100 * np.array([mean[t] - same[t], error[t]]) / same[t]
            print(f"{same[t]:8.4f} {above[0]:6.1f} +- {above[1]:.1f} {pairs[t]:7.1f}", flush=True)
        found.append((stress, runs, same, pairs))
    if asked.picture:
        draw(asked.picture, asked, found)
