#!/usr/bin/env python3
"""The long-time tail: the viscosity grows with the logarithm of the channel's height, and t C(t)
has a plateau.

Shear waves decay between walls as in viscosity.py. A line is fitted to measured / channel over the
logarithm of the rows. Formula: docs/DERIVATION.md#10. C(t) is what is left of a uniform stress at
t, by the pair closure, and as in response.py until its error is a third of it."""
import common
import fhpgas
import numpy as np
import response
import viscosity
from fhpgas import boltzmann, theory


def growth(gas, d, side):
    """By how much the viscosity grows with the logarithm of time."""
    nu, more = theory.viscosity(gas, d, side), theory.bulk_viscosity(gas, d)
    k, edge = 2e-4, np.array([0, np.pi / fhpgas.gas_named(gas).row_distance])
    factors = np.linalg.eigvals(boltzmann.generation_matrix(gas, d, edge + k * np.eye(2), side))
    along, across = -np.log(-factors[[0, 1], abs(factors + 1).argmin(-1)]).real / k**2
    modes = 1 / nu + 1 / (nu + more) + 3 / np.sqrt(along * across)
    return 3**0.5 * (1 - 2 * d) ** 2 / (3072 * np.pi * d * (1 - d)) * modes


def excess(asked, rows):
    """Measured / channel, and its error."""
    wave = viscosity.Wave(asked, asked.filling, rows)
    expected, runs = wave.viscosity(wave.predicted()), common.runs(wave.measured, asked)
    return fhpgas.mean_and_error([wave.viscosity(run) / expected for run in runs])


def draw(path, asked, ratios, line, pairs, plateau):
    with common.axes(path, 1, 2, (4.6, 3.6)) as (left, right):
        left.errorbar(asked.height, *ratios, fmt="C0o", ms=3)
        left.plot(asked.height, np.polyval(line, np.log2(asked.height)), "C1", lw=1)
        left.set(xlabel="rows", ylabel="viscosity, measured / channel", xscale="log")
        left.set_title(f"{asked.gas}, d = {asked.filling}, {asked.seeds} seeds")
        times = np.arange(1, len(pairs) + 1)
        at_rest = dict(until=[len(pairs)], width=2048, height=1024, triples=1, step=1)
        stress = response.Stress(type(asked)(**vars(asked) | at_rest), asked.filling)
        runs = common.runs(stress.measured, asked)
        found = times * np.array(fhpgas.mean_and_error(4 * np.diff(runs)))
        seen = np.logical_and.accumulate(found[1] < found[0] / 3)
        right.errorbar(times[seen], *found[:, seen], fmt="C0o", ms=3, label="measured")
        right.plot(times, times * pairs, "C2", lw=1, label="pairs")
        right.axhline(plateau, color="C1", lw=1, label="formula")
        right.set(xlabel="generations t", ylabel="t C(t)", xscale="log", ylim=(0, 4 * plateau))
        right.legend(fontsize=8)


@common.experiment
def main():
    reader = common.Options("the growth and the plateau", common.FLUIDS, "fhp-rest", (16, 4))
    reader.chirality()
    reader.filling(0.05, 0.6, 0.2)
    rows, speed = [16, 32, 64, 128, 256], "u, the speed in the middle"
    reader.option("--height", common.whole(8, 512), rows, rows[:3], "rows", metavar="ROWS")
    reader.option("--speed", common.number(0.005, 0.3), 0.15, 0.15, speed, metavar="U")
    reader.option("--until", common.whole(16, 1000), 100, 40, "generations of the closure")
    asked = reader.parse_args()
    flow, last = (asked.gas, asked.filling, asked.chirality), asked.until
    means, errors = ratios = np.transpose([excess(asked, rows) for rows in asked.height])
    for rows, mean, error in zip(asked.height, means, errors):
        print(f"{rows:4} rows: measured / channel {mean:.3f} +- {error:.3f}")
    line, spread = np.polyfit(np.log2(asked.height), means, 1, w=1 / errors, cov="unscaled")
    grown = growth(*flow)
    wanted = 200 * np.log(2) * grown / theory.viscosity(*flow)
    common.show("percent per doubling", 100 * line[0], 100 * spread[0, 0] ** 0.5, wanted, 1)
    pairs = 4 * np.diff(theory.pair_viscosity(*flow[:2], last, flow[2], size=2 * last))
    for t in (last // 4, last // 2, last):
        print(f"t C(t) of pairs at {t:3}: {t * pairs[t - 1]:.4f}  formula {4 * grown:.4f}")
    if asked.picture:
        draw(asked.picture, asked, ratios, line, pairs, 4 * grown)
