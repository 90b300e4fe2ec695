#!/usr/bin/env python3
"""The Galilean factor: how fast a wind carries a wave of the flow across it, compared with g(d).

In a wind u eastwards the gas moves north and south as v = 0.1 sin(k x). In a fluid the wave would
move with u, here with g u. A line is fitted to its phase in 300 (wave / 128)^2 generations, in the
rows a wave's length from the walls. Theory: the same fit to Boltzmann's equation without walls. For
a slow wind and a long wave g = (b/12) (1 - 2d) / (1 - d), with b directions (Frisch 1987)."""
import common
import fhpgas
import numpy as np
from fhpgas import boltzmann, theory

ACROSS, PARTS, BLOCK = 0.1, 12, 16


def places(asked, momenta):
    """The wave's place over time, from the momenta northwards [time, block of columns]."""
    wave = np.exp(-2j * np.pi * BLOCK * np.arange(np.shape(momenta)[1]) / asked.wave)
    phases = np.unwrap(np.angle(np.asarray(momenta) @ wave))
    return (phases[0] - phases) * asked.wave / 2 / np.pi


def measured(asked, filling, seed):
    size, across = fhpgas.Size(asked.width, asked.height), np.resize(asked.across, asked.width)
    lattice = fhpgas.draw_gas(filling, asked.wind, across, size=size, gas=asked.gas, seed=seed)
    edge = asked.wave  # within it walls act on the pressure: exp(-k y) = 1/200 at its end
    blocks = (later.blocks(BLOCK, 1) for later in lattice.every(asked.times[1], PARTS))
    return places(asked, [each.py[edge : asked.height - edge].sum(0) for each in blocks])


def predicted(asked, filling):
    flow = boltzmann.Flow(asked.gas, np.zeros((2, asked.wave)), has_walls=False)
    states = flow.every(flow.at(filling, asked.wind, asked.across), asked.times[1], PARTS)
    momenta = (flow.momentum(chances)[1].sum(0) for chances in states)
    return places(asked, [each.reshape(-1, BLOCK).sum(1) for each in momenta])


def draw(path, asked, waves):
    d, times = np.linspace(0.05, 0.6, 100), asked.times
    with common.axes(path, 1, 2) as (left, right):
        for n, (filling, found, error, factors) in enumerate(waves):
            left.errorbar(times, found, error, fmt=f"C{n}o", ms=3, label=f"d = {filling}")
            left.plot(times, np.polyval(np.polyfit(times, found, 1), times), f"C{n}", lw=1)
            right.errorbar(filling, *fhpgas.mean_and_error(factors), fmt=f"C{n}o", ms=3)
        left.plot(times, asked.wind * times, "k:", lw=1, label="a fluid")
        left.set(xlabel="generations", ylabel="way of the wave, cells' widths")
        left.set_title(f"{asked.gas}, wind {asked.wind}, wave {asked.wave}")
        slow, fast = (theory.galilean_factor(asked.gas, d, wind) for wind in (0, asked.wind))
        right.plot(d, slow, "0.6", lw=1, label="published, slow wind")
        right.plot(d, fast, "k", lw=1, label="Fermi and Dirac, this wind")
        right.set(xlabel="filling d", ylabel="Galilean factor g")
        left.legend(fontsize=8), right.legend(fontsize=8)


@common.experiment
def main():
    reader = common.Options("the waves' way, and g over d", common.FLUIDS, seeds=(8, 4))
    reader.fillings([0.2, 0.5])
    speed, length = "the speed of the wind", f"the length of the wave, a multiple of {BLOCK}"
    reader.option("--wind", common.number(0.02, 0.3), 0.2, 0.2, speed, metavar="U")
    reader.option("--wave", common.whole(64, 4096), 128, 128, length)
    reader.option("--width", common.whole(64, 65536), 512, 512, "columns, a multiple of the wave")
    reader.option("--height", common.whole(256, 8192), 768, 512, "rows, more than two waves")
    asked, waves = reader.parse_args(), []
    if asked.wave % BLOCK or asked.width % asked.wave or asked.height <= 2 * asked.wave:
        why = f"a multiple of {BLOCK} and a part of the width, and less than half of the height"
        raise fhpgas.Fault(f"the wave, {asked.wave}, is {why}")
    asked.across = ACROSS * np.sin(2 * np.pi * np.arange(asked.wave) / asked.wave)
    asked.times = round((asked.wave / 128) ** 2 * 25) * np.arange(PARTS + 1)  # all waves fade alike
    for filling in asked.filling:
        runs = common.runs(lambda seed: measured(asked, filling, seed), asked)
        ways = *runs, predicted(asked, filling)
        *found, expected = (np.polyfit(asked.times, way, 1)[0] / asked.wind for way in ways)
        common.compare(f"{asked.gas} d {filling}: g", found, expected, 4)
        print(f"{'':34} published {theory.galilean_factor(asked.gas, filling):19.4f}")
        waves.append((filling, *fhpgas.mean_and_error(runs), found))
    if asked.picture:
        draw(asked.picture, asked, waves)
