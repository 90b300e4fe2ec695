#!/usr/bin/env python3
"""Modes: the waves of the linear Boltzmann equation, how fast they move and fade, and which never
fade.

A generation multiplies a plane wave of small deviations from an equal filling by a matrix, and a
mode by its factor exp(-rate - i w). Viscosity: rate / k^2 of the shear. Sound: its speed w / k and
its damping D = rate / k^2. Measured: a gas begins with a wave of speed and density between the
walls, k = pi / height, and what it has of a mode is followed over time."""
import common
import fhpgas
import numpy as np
from fhpgas import boltzmann

PARTS, CELLS, SIZE, NAMES = 8, 131_072, 0.1, ("viscosity", "speed of sound", "damping D")


def matrix(asked, wave):
    return boltzmann.generation_matrix(asked.gas, asked.filling, wave, asked.chirality)


class Wave:
    """The shear and the sound in a channel of so many rows, which half a rotation continues."""

    def __init__(self, asked, rows):
        self.asked, self.gas = asked, fhpgas.gas_named(asked.gas)
        self.size = fhpgas.Size(CELLS // rows, rows)
        self.k = np.pi / rows / self.gas.row_distance
        self.angles = self.k * fhpgas.positions(self.size, self.gas)[1]
        factors, shapes = np.linalg.eig(matrix(asked, (0, self.k)))
        across, along = abs(self.gas.velocities.T @ shapes)
        is_still = abs(factors.imag) < 1e-9
        found = [(across * is_still).argmax(), (along * (factors.imag < -1e-9)).argmax()]
        self.factors, self.projections = factors[found], np.linalg.inv(shapes)[found]
        self.step = max(1, round(-1 / np.log(self.factors[0].real) / PARTS))

    def measured(self, seed):
        filling = self.asked.filling * (1 + SIZE * np.cos(self.angles))
        flow = dict(gas=self.gas, chirality=self.asked.chirality, seed=seed)
        start = fhpgas.draw_gas(filling, SIZE * np.sin(self.angles), size=self.size, **flow)
        sizes, times = [], self.step * np.arange(PARTS + 1)
        for lattice in start.every(self.step, PARTS):
            waves = lattice.counts(self.size[0], 1)[..., 0] @ np.exp(-1j * self.angles)
            sizes.append(self.projections @ (waves + waves.conj()[self.gas.opposite])[:, 0])
        rest = np.log(sizes / sizes[0] / self.factors ** times[:, None])
        return self.numbers(np.polyfit(times, rest, 1)[0])

    def numbers(self, more=0):
        shear, sound = -np.log(self.factors) - more
        return shear.real / self.k**2, sound.imag / self.k, sound.real / self.k**2


def zone(asked, points):
    """Wave vectors [n, n, 2] over a cell of their lattice, with 0 in its middle, and the largest
    moduli of their factors [n, n]."""
    s, t = np.meshgrid(*[np.arange(points) / points - 0.5] * 2)
    waves = 2 * np.pi * np.stack((s, (2 * t - s) / 3**0.5), -1)
    return waves, abs(np.linalg.eigvals(matrix(asked, waves))).max(-1)


def draw(path, asked, waves, found):
    k, at = np.linspace(0, 3.6, 400), np.array([wave.k for wave in waves])
    factors = np.linalg.eigvals(matrix(asked, np.stack((0 * k, k), 1)))
    vectors, most = zone(asked, 96)
    with common.axes(path, 1, 2, (5, 3.8)) as (left, right):
        left.plot(k, -np.log(abs(factors)), "C1.", ms=1)
        for name, of, fmt in ("shear", 0, "C0o"), ("sound", 2, "C2o"):
            left.errorbar(at, *at**2 * np.transpose(found)[:, of], fmt=fmt, ms=3, label=name)
        title = f"{asked.gas} {asked.chirality}, d = {asked.filling}; orange Boltzmann"
        left.set(xlabel="wave number across the rows", ylabel="rate", ylim=(0, 0.5), title=title)
        shown = right.pcolormesh(*np.moveaxis(vectors, -1, 0), most)
        right.figure.colorbar(shown, label="largest factor, modulus")
        right.set(xlabel="wave number eastwards", ylabel="northwards", aspect="equal")
        left.legend(fontsize=8, title=f"{asked.seeds} seeds of {CELLS} cells", title_fontsize=8)


@common.experiment
def main():
    reader = common.Options("all modes' rates", common.FLUIDS, seeds=(8, 4))
    reader.chirality()
    reader.filling(0.05, 0.9, 0.3)
    rows = [4, 8, 16, 32, 64]
    reader.option("--height", common.whole(4, 256), rows, [8, 16], "rows", metavar="ROWS")
    asked, found = reader.parse_args(), []
    waves = [Wave(asked, rows) for rows in asked.height]
    for wave in waves:
        runs = common.runs(wave.measured, asked)
        columns = zip(NAMES, zip(*runs), wave.numbers())
        found.append([common.compare(f"{wave.size[1]} rows: {n}", *each) for n, *each in columns])
    at, most = zone(asked, 48)
    print("waves that never fade:", *(f"({x:.3f}, {y:.3f})" for x, y in at[most > 1 - 1e-9]))
    if asked.picture:
        draw(asked.picture, asked, waves, found)
