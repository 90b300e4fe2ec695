#!/usr/bin/env python3
"""A standing sound wave between the walls: its speed and its damping.

At the start the filling of a row is d (1 + a cos k y), k = pi / height, and the gas is at rest.
exp(-D k^2 t) (A cos(c k t) + B sin(c k t)) is fitted to the amplitude of this cosine in the
density. Theory: the same fit to the noise-free Boltzmann equation. In hpp a second wave is along
the diagonals. Published: c = 1 / sqrt 2, in fhp-rest sqrt(3/7), and D = (viscosity + bulk
viscosity) / 2 (Frisch 1987)."""
import common
import fhpgas
import numpy as np
from fhpgas import boltzmann
from scipy.optimize import curve_fit

AMPLITUDE, STEP, SAMPLES = 0.1, 8, 64
TIMES = STEP * np.arange(SAMPLES + 1)


def wave(asked, is_diagonal):
    """The wave number, and the shape of the wave in the cells [y, x], or in the rows [y, 1] if it
    does not vary along x."""
    rows = asked.height
    k = np.pi / rows / fhpgas.gas_named(asked.gas).row_distance
    shape = np.cos(np.pi * (np.arange(rows)[:, None] + 0.5) / rows)
    if is_diagonal:
        return np.sqrt(2) * k, shape * np.cos(np.pi * np.arange(2 * rows) / rows)
    return k, shape


def swing(t, frequency, rate, a, b):
    return np.exp(-rate * t) * (a * np.cos(frequency * t) + b * np.sin(frequency * t))


def fit(values, k):
    return curve_fit(swing, TIMES, values, (0.7 * k, 0.2 * k * k, values[0], 0))[0]


def measured(asked, shape, seed):
    width = asked.width if shape.shape[1] == 1 else shape.shape[1]
    filling, size = asked.filling * (1 + AMPLITUDE * shape), fhpgas.Size(width, len(shape))
    lattice = fhpgas.draw_gas(filling, size=size, gas=asked.gas, seed=seed)
    blocks = (later.blocks(width // shape.shape[1], 1) for later in lattice.every(STEP, SAMPLES))
    return [(shape * each.density).sum() / (shape**2).sum() for each in blocks]


def predicted(asked, shape):
    flow = boltzmann.Flow(asked.gas, np.zeros(shape.shape))
    states = flow.every(flow.at(asked.filling * (1 + AMPLITUDE * shape)), STEP, SAMPLES)
    return [(shape * flow.density(chances)).sum() / (shape**2).sum() for chances in states]


def draw(path, mean, error, k, name):
    fine, best = np.linspace(0, TIMES[-1], 1000), fit(mean, k)
    with common.axes(path, 2, 1, (7, 2.4), sharex=True) as (above, below):
        label = f"fit: c = {best[0] / k:.4f}, D = {best[1] / k**2:.3f}"
        above.plot(fine, swing(fine, *best), "C1", lw=1, label=label)
        above.plot(fine, np.exp(-best[1] * fine) * np.hypot(*best[2:]), "C1:", lw=1)
        above.plot(TIMES, mean, "C0.", label="measured")
        above.set(ylabel="amplitude of the density", title=f"standing sound wave, {name}")
        above.legend(loc="lower right")
        below.errorbar(TIMES, mean - swing(TIMES, *best), error, fmt="C0.", lw=0.7)
        below.axhline(0, color="C1", lw=1)
        below.set(xlabel="generations", ylabel="measured − fit")


@common.experiment
def main():
    reader = common.Options("the swinging amplitude with its fit", common.GASES, seeds=(40, 4))
    reader.filling(0.05, 0.9, 0.3)
    reader.option("--height", common.whole(16, 512), 128, 32, "rows")
    reader.option("--width", common.whole(256, 65536), 2048, 2048, "columns")
    asked = reader.parse_args()
    for is_diagonal in (False, True) if fhpgas.gas_named(asked.gas).is_square else (False,):
        k, shape = wave(asked, is_diagonal)
        runs = common.runs(lambda seed: measured(asked, shape, seed), asked)
        fits, theory = [fit(values, k) for values in runs], fit(predicted(asked, shape), k)
        name = "diagonal" if is_diagonal else "upwards"
        common.compare(f"speed of sound {name}", [each[0] / k for each in fits], theory[0] / k, 4)
        common.compare(f"damping D {name}", [each[1] / k**2 for each in fits], theory[1] / k**2)
        if asked.picture and not is_diagonal:
            title = f"{asked.gas}, d = {asked.filling}, {asked.height} rows, {asked.seeds} seeds"
            draw(asked.picture, *fhpgas.mean_and_error(runs), k, title)
