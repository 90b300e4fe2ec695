#!/usr/bin/env python3
"""Darcy's law: the flow through a porous medium, over the force that drives it, and the medium's
permeability.

`fhpgas.driven` drives the gas through discs at random places with a force F on every fluid cell.
Darcy: the flux, velocity x porosity, is permeability x F / (particles of a fluid cell x viscosity),
here Boltzmann's. Theory: the noise-free Boltzmann equation of the same medium. D. H. Rothman,
Geophysics 53 (1988) 509, did such flows first."""
import common
import fhpgas
import numpy as np
from fhpgas import boltzmann, theory
from scipy.ndimage import label

# Odd, because particles in a pocket of one cell reverse in every generation, and after an even
# number the kicks would add up.
EVERY = 9


def measured(asked, solid, force, seed):
    lattice = fhpgas.draw_gas(asked.filling, solid=solid, gas=asked.gas, seed=seed)
    last = EVERY * (asked.settled + asked.samples)
    points = [*lattice.driven(last, EVERY, force=force, seed=seed)]
    speed = np.mean([point.velocity for point in points[asked.settled + 1 :]])
    return speed * np.mean(~solid), points[-1].before.blocks(4, 4)


def predicted(asked, solid, force):
    flow = boltzmann.Flow(asked.gas, solid)
    pairs = flow.driven(flow.at(asked.filling), asked.settled + asked.samples, EVERY, force)
    speeds = [flow.momentum(sum(pair) / 2)[0].sum() / flow.density(pair[0]).sum() for pair in pairs]
    return np.mean(speeds[asked.settled + 1 :]) * np.mean(~solid)


def draw(path, asked, fluxes, slope, blocks):
    with common.axes(path, 1, 2, (4.6, 3.6)) as (left, right):
        forces = np.array([0, max(asked.force)])
        left.plot(forces, slope * forces, "C1", lw=1, label="Darcy, Boltzmann's permeability")
        left.errorbar(asked.force, *zip(*fluxes), fmt="C0o", ms=3, label="measured")
        left.set(xlabel="force per fluid cell", ylabel="flux")
        left.set_title(f"{asked.gas}, d = {asked.filling}, {asked.seeds} seeds")
        left.ticklabel_format(axis="x", scilimits=(0, 0)), left.legend(fontsize=8)
        blocks.plot("speed", right)


def medium(asked):
    """Discs at random places, and the pores between them that are not joined to the largest."""
    size = fhpgas.Size(asked.width, asked.height)
    solid = fhpgas.porous(size, asked.share, asked.radius, 1, asked.gas)
    pores, _ = label(~solid)
    # In closed pores the force would act against nothing.
    return solid | (pores != np.bincount(pores[~solid]).argmax())


@common.experiment
def main():
    reader = common.Options("the flux, and the flow", common.FLUIDS, "fhp-rest", seeds=(8, 4))
    reader.filling(0.1, 0.6, 0.2)
    reader.option("--width", common.whole(16, 4096), 128, 80, "columns")
    reader.option("--height", common.whole(16, 4096), 96, 32, "rows")
    reader.option("--share", common.number(0, 0.7), 0.2, 0.2, "of solid cells, at least")
    reader.option("--radius", common.whole(1, 64), 6, 4, "of the discs")
    forces, kicks = [0.0005, 0.001, 0.002], f"kicks before the first sample, {EVERY}"
    each, after = "on each fluid cell", "how many, at the kicks after these"
    reader.option("--force", common.number(1e-5, 0.02), forces, [0.002], each, metavar="F")
    reader.option("--settled", common.whole(10, 10_000), 30, 15, f"{kicks} generations apart")
    reader.option("--samples", common.whole(2, 100_000), 200, 85, after)
    asked, fluxes = reader.parse_args(), []
    solid = medium(asked)
    print(f"porosity {np.mean(~solid):.3f}")
    viscosity = theory.viscosity(asked.gas, asked.filling)
    unit = viscosity * fhpgas.gas_named(asked.gas).directions * asked.filling
    theories = fhpgas.side_by_side(lambda force: predicted(asked, solid, force), asked.force)
    for force, expected in zip(asked.force, theories):
        runs = common.runs(lambda seed: measured(asked, solid, force, seed), asked)
        found, blocks = zip(*runs)
        scale = unit / force
        common.compare(f"force {force}: permeability", scale * np.array(found), scale * expected)
        fluxes.append(fhpgas.mean_and_error(found))
    if asked.picture:
        draw(asked.picture, asked, fluxes, theories[0] / asked.force[0], sum(blocks[1:], blocks[0]))
