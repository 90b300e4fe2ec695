#!/usr/bin/env python3
"""Poiseuille flow: a driven gas between two walls, its viscosity, its slip at the walls, and the
odd viscosity of a chiral gas.

`fhpgas.driven` flips particles, a force F on every cell, from west to east or along all directions
(`--along`), which makes another slip. To the mean of the rows' velocities before and after the
flips, and of the seeds, a parabola u = F (zero^2 - y^2) / (2 b d viscosity) is fitted. In H rows
it ends at zero^2 = H^2 / 4 + K squared rows, with one slip K for every H. Errors are a jackknife's
over the seeds. In a chiral gas a shear changes the density by -b d odd viscosity / c^2 du/dy.
Theory: the same with the noise-free Boltzmann equation.
"Formula" is its stationary solution for a weak force in every generation (`fhpgas.theory.slip`)."""
import common
import fhpgas
import numpy as np
from fhpgas import boltzmann, theory
from fhpgas.gases import DRIVES

SPAN = 8  # relaxation times, until the flow is steady
NAMES = "viscosity", "slip K", "odd viscosity", "speed in the middle"


class Channel:
    """A channel of so many rows, with theory's force and times for the asked speed."""

    def __init__(self, asked, rows):
        self.gas, self.filling, self.rows = fhpgas.gas_named(asked.gas), asked.filling, rows
        self.chirality, self.along = asked.chirality, asked.along
        self.size = fhpgas.Size(asked.cells // rows, rows)
        self.mass = self.gas.directions * asked.filling
        self.places = (rows - 1) / 2 - np.arange(rows)
        flow = self.gas, self.filling, self.chirality
        zero = self.gas.row_distance**2 * (rows**2 / 4 + theory.slip(*flow, self.along))
        viscosity = theory.viscosity(*flow)
        self.force = 2 * self.mass * viscosity * asked.speed / zero
        time = 4 * zero / np.pi**2 / viscosity
        self.every = int(np.clip(time / 16, 1, 4))
        self.settled = self.every * int(SPAN * time / self.every)
        self.last = self.every * int(SPAN * (1 + asked.spans) * time / self.every)

    def fits(self, means):
        """What NAMES says, from the rows' velocities and densities."""
        flows, densities = means
        bend, middle = np.polyfit(self.places**2, flows, 1)
        if bend >= 0 or middle <= 0:
            raise fhpgas.Fault("the flow is not fastest in the middle: take more cells or seeds")
        bent = bend / self.gas.row_distance**2
        rise = np.polyfit(self.gas.row_distance * self.places, densities, 1)[0]
        odd = -rise / self.mass * theory.sound_speed(self.gas) ** 2 / (2 * bent)
        viscosity, slip = -self.force / (2 * bent * self.mass), -middle / bend - self.rows**2 / 4
        return viscosity, slip, odd, flows[(self.rows - 1) // 2 : self.rows // 2 + 1].mean()

    def measured(self, seed):
        flow = dict(gas=self.gas, chirality=self.chirality, seed=seed)
        lattice, blocks = fhpgas.draw_gas(self.filling, size=self.size, **flow), []
        drive = dict(force=self.force, along=self.along, seed=seed)
        for point in lattice.driven(self.last, self.every, **drive):
            if point.before.generation > self.settled:
                pair = point.before, point.after
                blocks += [each.blocks(self.size.columns, 1) for each in pair]
        total = sum(blocks[1:], blocks[0])
        return total.east[:, 0], total.particles[:, 0] / len(blocks) / self.size.columns

    def predicted(self):
        flow = boltzmann.Flow(self.gas, np.zeros((self.rows, 1)), self.chirality)
        points, drive = 2 * self.settled // self.every, (self.every, self.force, self.along)
        *_, last = flow.driven(flow.at(self.filling), points, *drive)
        speeds = [flow.velocity(chances)[0, :, 0] for chances in last]
        return np.mean(speeds, 0), flow.density(last[0])[:, 0]


def draw(path, asked, channel, profiles, slips):
    with common.axes(path, 1, 3, (4, 3.6)) as (left, middle, right):
        mean, error = (each[0] for each in fhpgas.mean_and_error(profiles))
        line = np.poly1d(np.polyfit(channel.places**2, mean, 1))
        fine = np.linspace(-1, 1, 200) * np.sqrt(line.roots[0])
        left.plot(line(fine**2), fine, "C1", lw=1, label="parabola")
        left.errorbar(mean, channel.places, xerr=error, fmt="C0.", label="measured")
        for side in (-1, 1):
            left.axhspan(side * channel.rows / 2, side * (fine[-1] + 1), color="0.8")
        left.set(xlabel="velocity eastwards", ylabel="rows from the middle")
        left.set_title(f"{asked.gas} {asked.chirality}, d = {asked.filling}")
        rest = mean - line(channel.places**2)
        middle.errorbar(1e4 * rest, channel.places, xerr=1e4 * error, fmt="C0.")
        middle.axvline(0, color="C1", lw=1)
        middle.set_xlabel("(velocity − parabola) × 10⁴")
        middle.set_title(f"{channel.rows} rows, {asked.cells:,} cells, {asked.seeds} seeds")
        right.errorbar(asked.height, *zip(*slips), fmt="C0o", ms=3, label="measured")
        formula = theory.slip(asked.gas, asked.filling, asked.chirality, asked.along)
        right.axhline(formula, color="C1", lw=1, label="formula")
        right.set(xlabel="rows H", ylabel="zero² − H²/4, squared rows", ylim=(0, None))
        right.set_title("slip K")
        left.legend(fontsize=8), right.legend(fontsize=8)


@common.experiment
def main():
    figure = "the profile with its parabola, what is left, and the slip"
    reader = common.Options(figure, common.FLUIDS, seeds=(8, 4))
    reader.chirality()
    reader.option("--along", str, *DRIVES[:1] * 2, "what the force flips", choices=DRIVES)
    reader.filling(0.1, 0.6, 0.3)
    rows, cells = "rows, one or more", "of the channel, so columns are cells / rows"
    time = f"time of the samples, each {SPAN} times the time in which a flow relaxes"
    speed = "in the middle, as theory says"
    reader.option("--height", common.whole(4, 128), [8, 16, 32], [8], rows, metavar="ROWS")
    reader.option("--cells", common.whole(4096, 4_000_000), 65_536, 16_384, cells)
    reader.option("--speed", common.number(0.01, 0.2), 0.08, 0.08, speed, metavar="U")
    reader.option("--spans", common.whole(1, 1000), 2, 3, time)
    asked, slips = reader.parse_args(), []
    for channel in (Channel(asked, rows) for rows in asked.height):
        profiles = common.runs(channel.measured, asked)
        fits = common.jackknife(channel.fits, profiles)
        columns = [*zip(NAMES, *fits, channel.fits(channel.predicted()), (3, 3, 3, 4))]
        found = [common.show(f"{channel.rows} rows: {n}", *each) for n, *each in columns]
        slips.append(found[1])
    flow = asked.gas, asked.filling, asked.chirality
    formulas = theory.viscosity(*flow), theory.slip(*flow, asked.along), theory.odd_viscosity(*flow)
    for name, value in zip(NAMES, formulas):
        print(f"formula: {name} {round(value, 3) + 0.0:.3f}")
    if asked.picture:
        draw(asked.picture, asked, channel, profiles, slips)
