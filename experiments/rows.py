#!/usr/bin/env python3
"""The rows of HPP: each keeps its momentum j = n_E - n_W, which spreads along it faster than heat.

S(x, t) is the correlation of j with the j of the same row x cells on and t generations later, in a
gas at rest. Theory (docs/DERIVATION.md#11-the-rows-of-hpp): 4 d (1 - d) / w f(x / w) in every
second cell, w = (L t)^(2/3), L = sqrt(2) (1 - 2 d) / sqrt(d (1 - d)), with f by M. Prahofer, H.
Spohn, J. Stat. Phys. 115 (2004) 255. Width: of the f that fits best. Of a uniform stress E + W - N
- S, far from the walls, is left in the end 2/9 0.5105 L^(4/3) t^(-2/3). The control is d = 1/2,
where L is 0: there momentum spreads as heat, w = sqrt(2 D t), with one D at all times."""
import common
import fhpgas
import numpy as np
from equilibrium import drawn
from scipy.fft import irfft, rfft
from scipy.optimize import minimize_scalar

GAS, SHARE, SIDES, VARIANCE = fhpgas.GASES["hpp"], 0.3, np.array([1, -1, 1, -1]), 0.5105
SHAPE = 0.000623, -0.037025, 0.253228, -0.901592, -0.610734  # of ln f over y^2


def scaling(y):
    """f, with its value at 0 and its variance within 0.3 percent, and 0 beyond 3."""
    y = np.minimum(abs(y), 3)
    return np.exp(np.polyval(SHAPE, y * y) - 0.2949 * y**3 * np.tanh(y * y)) * (y < 3)


class Rows:
    """A gas of a filling, with the law of its rows."""

    def __init__(self, asked, filling):
        self.asked, self.filling = asked, filling
        self.size = fhpgas.Size(asked.columns, asked.rows)
        self.places = np.fft.fftfreq(asked.columns, 1 / asked.columns)
        self.fast = np.sqrt(2) * (1 - 2 * filling) / np.sqrt(filling * (1 - filling))
        heat = lambda y: np.exp(-y * y / 2) / np.sqrt(2 * np.pi)
        self.shape = scaling if self.fast else heat

    def width(self, time):
        return (self.fast * time) ** (2 / 3) if self.fast else np.sqrt(2 * time)

    def left(self, time):
        return 2 / 9 * VARIANCE * self.fast ** (4 / 3) * time ** (-2 / 3)

    def correlated(self, seed):
        """S w / 4 d (1 - d) at the times [time, x]."""
        gas, found = fhpgas.draw_gas(self.filling, size=self.size, gas=GAS, seed=seed), []
        first, scale = waves(gas), 4 * self.filling * (1 - self.filling) * self.size.columns
        for time in self.asked.times:
            gas = gas.run(time - gas.generation)
            products = irfft((first.conj() * waves(gas)).mean(0))
            found.append(products * self.width(time) / scale)
        return found

    def stressed(self, seed):
        """What is left of a uniform stress at the times, in the inner three quarters."""
        size = fhpgas.Size(self.size.columns, 4 * self.size.rows)
        gas = drawn(GAS, self.filling * (1 + SHARE * SIDES), size, 1000 + seed)
        found, height = [], size.rows // 8
        for time in (0, *self.asked.times):
            gas = gas.run(time - gas.generation)
            found.append(SIDES @ gas.counts(None, height)[:, 1:7].sum((1, 2)))
        return np.array(found[1:]) / found[0]

    def fitted(self, values, time):
        """By what factor the law must be wider to fit values [x] best."""
        y = self.places / self.width(time)
        near = (abs(y) < 3) & (self.places % 2 == time % 2)
        miss = lambda a: ((values[near] - self.shape(y[near] / a) / a) ** 2).sum()
        return minimize_scalar(miss, bounds=(0.3, 3), method="bounded").x


def waves(gas):
    return rfft((gas.states & 1).astype(np.float32) - (gas.states >> 2 & 1))


def draw(path, asked, found):
    times, last, fine = np.array(asked.times), asked.times[-1], np.linspace(-2.6, 2.6, 300)
    with common.axes(path, 1, 2) as (left, right):
        for rows, runs, stress in found:
            y, name = rows.places / rows.width(last), f"d = {rows.filling}"
            near = (abs(y) < 2.6) & (rows.places % 2 == last % 2)
            left.plot(y[near], np.mean(runs, 0)[-1][near], ".", ms=3, label=f"{name}, t = {last}")
            if rows.fast:
                left.plot(fine, scaling(fine), "k", lw=1, label="Prähofer and Spohn")
                right.errorbar(times, *fhpgas.mean_and_error(stress), fmt="o", ms=3, label=name)
                right.plot(times, rows.left(times), "k", lw=1, label="law")
        left.set(xlabel="x / w", ylabel="S w / 4d(1−d)", title="hpp, the momentum of a row")
        right.set(xlabel="generations", ylabel="stress left", xscale="log", yscale="log")
        right.set_title(f"{asked.seeds} seeds, {asked.columns:,} x {asked.rows:,} cells")
        left.legend(fontsize=8), right.legend(fontsize=8)


@common.experiment
def main():
    reader = common.Options("S at the last time, and the stress over time", seeds=(8, 4))
    fillings = common.number(0.05, 0.5), [0.2, 0.5], [0.2, 0.5], "fillings, one or more"
    reader.option("--filling", *fillings, metavar="D")
    reader.option("--columns", common.whole(256, 65536), 4096, 1024, "columns")
    rows, text = common.whole(256, 16384), "rows; the stress has four times as many"
    reader.option("--rows", rows, 1024, 512, text)
    asked, found = reader.parse_args(), []
    asked.times = [16, 64, 256, 1024, 2048][: 3 if asked.small else 5]
    for rows in (Rows(asked, filling) for filling in asked.filling):
        runs = common.runs(rows.correlated, asked)
        stress = np.array(common.runs(rows.stressed, asked) if rows.fast else [])
        for n, time in enumerate(asked.times):
            name = f"d {rows.filling}, t {time}"
            widths = np.array([rows.fitted(run[n], time) for run in runs])
            if rows.fast:
                common.compare(f"{name}: width / w", widths, 1)
                common.compare(f"{name}: stress left", stress[:, n], rows.left(time), 4)
            else:
                print("{}: D {:.3f} +- {:.3f}".format(name, *fhpgas.mean_and_error(widths**2)))
        found.append((rows, runs, stress))
    if asked.picture:
        draw(asked.picture, asked, found)
