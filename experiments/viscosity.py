#!/usr/bin/env python3
"""The viscosity, from a shear wave between two walls that dies away: over filling, chirality and
width.

At the start row y flows east with u sin(k x distance from the wall), k = pi / height. The sine's
amplitude falls as exp(-viscosity k^2 t). A line is fitted to its logarithm at nine times, until
theory expects 1/e. It is compared with Boltzmann's value of an infinite gas (Frisch 1987) and with
the same fit to the noise-free Boltzmann equation of this very channel."""
import common
import fhpgas
import numpy as np
from fhpgas import boltzmann, theory

PARTS, CELLS = 8, 131_072


class Wave:
    """A shear wave of a filling in a channel of so many rows. `times` are k^2 x generations."""

    def __init__(self, asked, filling, rows):
        self.filling, self.rows = filling, rows
        self.flow = dict(gas=asked.gas, chirality=asked.chirality)
        self.sine = np.sin(np.pi * (np.arange(rows)[:, None] + 0.5) / rows)
        self.east = asked.speed * self.sine
        self.published = theory.viscosity(filling=filling, **self.flow)
        k = np.pi / rows / fhpgas.gas_named(asked.gas).row_distance
        self.step = max(1, round(1 / self.published / k**2 / PARTS))
        self.times = k**2 * self.step * np.arange(PARTS + 1)

    def measured(self, seed):
        size = fhpgas.Size(CELLS // self.rows, self.rows)
        lattice = fhpgas.draw_gas(self.filling, self.east, size=size, seed=seed, **self.flow)
        rows = (later.blocks(size.columns, 1) for later in lattice.every(self.step, PARTS))
        return self.logarithms([each.px for each in rows], f"seed {seed}")

    def predicted(self):
        flow = boltzmann.Flow(solid=np.zeros((self.rows, 1)), **self.flow)
        states = flow.every(flow.at(self.filling, self.east), self.step, PARTS)
        return self.logarithms([flow.momentum(chances)[0] for chances in states], "theory")

    def logarithms(self, momenta, name):
        sizes = (self.sine * momenta).sum((1, 2))
        if sizes.min() <= 0:
            why = f"at filling {self.filling} the wave is lost in noise"
            raise fhpgas.Fault(f"{name}: {why}; a wider channel or fewer rows may show it")
        return np.log(sizes / sizes[0])

    def viscosity(self, logarithms):
        return -np.polyfit(self.times, logarithms, 1)[0]


def draw(path, waves, title):
    with common.axes(path, 2, 1, (6, 2.9), sharex=True) as (above, below):
        for n, (wave, runs) in enumerate(waves):
            mean, error = fhpgas.mean_and_error(runs)
            line = np.polyval(np.polyfit(wave.times, mean, 1), wave.times)
            name = f"d = {wave.filling}, {wave.rows} rows: viscosity {wave.viscosity(mean):.3f}"
            points = np.exp(mean), np.exp(mean) * error
            above.errorbar(wave.times, *points, fmt=f"C{n}o", ms=3, label=name)
            above.semilogy(wave.times, np.exp(line), f"C{n}", lw=1)
            below.errorbar(wave.times, mean - line, error, fmt=f"C{n}o-", ms=3, lw=0.7)
        above.set(ylabel="amplitude / amplitude at 0", title=f"shear waves, {title}")
        above.legend(fontsize=8)
        below.set(xlabel="k² × generations", ylabel="logarithm − line")


@common.experiment
def main():
    figure = "the decays on a logarithmic axis with their fits"
    reader = common.Options(figure, common.FLUIDS, seeds=(16, 4))
    reader.chirality()
    reader.fillings([0.2])
    rows, speed = "rows, one or more", "u, the speed in the middle"
    reader.option("--height", common.whole(8, 512), [64], [32], rows, metavar="ROWS")
    reader.option("--speed", common.number(0.005, 0.3), 0.15, 0.15, speed, metavar="U")
    asked, waves = reader.parse_args(), []
    print(f"{asked.gas} {asked.chirality}\n   d  rows   measured        channel  published")
    for wave in (Wave(asked, filling, rows) for filling in asked.filling for rows in asked.height):
        runs = common.runs(wave.measured, asked)
        mean, error = fhpgas.mean_and_error([wave.viscosity(run) for run in runs])
        print(f"{wave.filling:4} {wave.rows:5} {mean:8.4f} +- {error:.4f}", end=" ")
        channel = wave.viscosity(wave.predicted())
        print(f"{channel:8.4f} {wave.published:8.4f}", flush=True)
        waves.append((wave, runs))
    if asked.picture:
        draw(asked.picture, waves, f"{asked.gas} {asked.chirality}, {asked.seeds} seeds")
