#!/usr/bin/env python3
"""Drag: the force on a disc that blocks a quarter of a channel, over the Reynolds number.

F is the mean of `fhpgas.forces` over all generations of the second half of a run, u the mean speed,
D the diameter of the disc's area, C = 2 F / (density g u^2 D), and Re = g u D / viscosity, with
pairs. C Re / 2 = F / (density viscosity u) is measured first at d = 1/2, where g and so Re are 0,
beside 3/2 of a formula of H. Faxen (1946, from memory)."""
import common
import fhpgas
import numpy as np
from fhpgas import theory

GAS, EVERY, BLOCKED = fhpgas.GASES["fhp-rest"], 10, 0.244


def slowest(k):
    """C Re / 2 at Re = 0 of a disc that blocks the share k of the channel."""
    top = 1 + k**2 / 2 + 0.05464866 * k**4 - 0.26462967 * k**6 + 0.792986 * k**8
    rest = 1.26653975 * k**2 - 0.9180433 * k**4 + 1.877101 * k**6 - 4.66549 * k**8
    return 6 * np.pi / (rest - 0.9156892732 - top * np.log(k))


def measured(asked, solid, filling, speed, seed):
    """F. The mean over the fluid cells is the mean of the channel / the share of these cells."""
    start, forces = fhpgas.draw_gas(filling, speed, solid=solid, gas=GAS, seed=seed), []
    drive = dict(flow=speed / np.mean(~solid), seed=seed)
    for point in start.driven(asked.generations, EVERY, **drive):
        if 2 * point.before.generation >= asked.generations:
            _, *later = point.after.every(1, EVERY)
            forces += [fhpgas.forces(lattice)["solid"][0] for lattice in later]
    return np.mean(forces)


def draw(path, asked, found, slow):
    with common.axes(path) as ax:
        ax.errorbar(*np.transpose(found), fmt="C0o", ms=3, label="measured")
        ax.axhline(slow, color="C1", lw=1, label="formula of Re = 0")
        ax.set(xlabel="Reynolds number", ylabel="C Re / 2", ylim=(0, None))
        ax.set_title(f"{GAS}, disc of {2 * asked.radius} cells, {asked.seeds} seeds")
        ax.legend(fontsize=8)


@common.experiment
def main():
    reader = common.Options("C Re / 2 over Re", seeds=(4, 2))
    reader.option("--radius", common.whole(8, 200), 24, 10, "of the disc, in cells")
    reader.option("--generations", common.whole(100, 10_000_000), 12_000, 2000, "in all")
    speeds, text = [0.1, 0.2, 0.27], "mean speeds at d = 0.18, one or more"
    reader.option("--speed", common.number(0.01, 0.3), speeds, [0.2], text, metavar="U")
    asked, found = reader.parse_args(), []
    rows = 2 * round(asked.radius / BLOCKED / GAS.row_distance)
    place = asked.radius * 5, rows // 2, asked.radius, GAS
    solid = fhpgas.disc(fhpgas.Size(20 * asked.radius, rows), *place)
    across = 2 * np.sqrt(np.count_nonzero(solid) * GAS.row_distance / np.pi)
    slow = slowest(across / rows / GAS.row_distance)
    for d, u in ((0.5, 0.1), *((0.18, speed) for speed in asked.speed)):
        nu, g = theory.pair_viscosity(GAS, d, 60, size=120)[-1], theory.galilean_factor(GAS, d)
        forces = np.array(common.runs(lambda seed: measured(asked, solid, d, u, seed), asked))
        values = forces * GAS.row_distance / (GAS.directions * d * nu * u)
        reynolds, (mean, error) = g * u * across / nu, fhpgas.mean_and_error(values)
        found.append((reynolds, mean, error))
        if not reynolds:
            common.compare("Reynolds 0: C Re / 2", values, slow, 2)
            continue
        name, scale = f"Reynolds {reynolds:.1f}: C", 2 / reynolds
        print(f"{name:34} measured {scale * mean:8.2f} +- {scale * error:.2f}", flush=True)
    if asked.picture:
        draw(asked.picture, asked, found, slow)
