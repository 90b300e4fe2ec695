#!/usr/bin/env python3
"""A vortex street behind a cylinder: its Strouhal number, and a picture of its vorticity.

The gas flows past a disc of diameter D in a channel that is periodic after `--length` D. Its mean
speed is kept by flipping particles. A gust to the north starts the street. In the last two thirds
of the run are measured: the mean speed, the speed u that meets the disc (over its height, one to
two D ahead of it), the changes of sign of the flow across in the wake (one to two D behind the
disc), half a period apart, and the heights of the vortices. St = D / (T g u), for each half period
with the speed during it, Re = g u D / viscosity, with pairs. A free cylinder has St = 0.212 (1 -
21.2 / Re) (A. Roshko, NACA Report 1191, 1954) and sheds vortices from about Re = 47 on."""
import common
import fhpgas
import numpy as np
from fhpgas import theory

GAS, FILLING, FIRST, BLOCK = "fhp-rest", 0.18, 47, (8, 9)


class Street:
    """The channel and what is measured in it. Places are in diameters from the disc's middle."""

    def __init__(self, asked):
        self.radius, self.across, self.part = asked.radius, 2 * asked.radius, asked.part
        rows = 2 * round(asked.height * self.radius / fhpgas.gas_named(GAS).row_distance)
        self.size = fhpgas.Size(round(asked.length * self.across), rows)
        column, row = round(2.5 * self.across), rows // 2
        x, y = fhpgas.positions(self.size, GAS)
        self.middle = x[row, column], y[row, 0]
        x, y = self.places(x, y)
        gust = asked.flow / 2 * np.exp(-((x - 2) ** 2) - y**2)
        solid = fhpgas.disc(self.size, column, row, self.radius, GAS)
        start = fhpgas.draw_gas(FILLING, asked.flow, gust, solid=solid, gas=GAS, seed=asked.seed)
        drive = dict(flow=asked.flow, seed=asked.seed)
        samples, self.fields = [], 0.0
        for point in start.driven(asked.generations, asked.part, **drive):
            self.last, time = point.before, point.before.generation
            if 3 * time >= asked.generations:
                sample = self.sampled(self.last.blocks(*BLOCK))
                samples.append((time, point.velocity, *sample))
        self.times, self.speeds, self.incoming, self.sides = np.array(samples).T

    def places(self, x, y):
        return (x - self.middle[0]) / self.across, (y - self.middle[1]) / self.across

    def sampled(self, blocks):
        """The speed that meets the disc, and the flow across. Adds up squared vorticity by sign."""
        self.x, self.y = self.places(*blocks.positions)
        curl = np.nan_to_num(blocks.smooth(2).vorticity)
        self.fields = self.fields + np.array([np.maximum(0, side * curl) ** 2 for side in (-1, 1)])
        wake = blocks.north[abs(self.y) < 0.25][:, (self.x > 1) & (self.x < 2)].mean()
        return blocks.east[abs(self.y) < 0.5][:, (self.x > -2.5) & (self.x < -1.5)].mean(), wake

    def crossings(self):
        """When the flow across changes its sign, on straight lines between the samples."""
        side = self.sides - self.sides.mean()
        n = np.flatnonzero(side[:-1] * side[1:] < 0)
        return self.times[0] + self.part * (n + side[n] / (side[n] - side[n + 1]))

    def heights(self, behind):
        """The heights, in radii, of the clockwise and the other vortices so far behind the disc."""
        inner, near = abs(self.y) < 1.5, abs(self.x - behind) < 0.25
        weights = (field[inner][:, near].sum(1) for field in self.fields)
        return [2 * np.average(self.y[inner], weights=each) for each in weights]


def report(street, times):
    viscosity = theory.pair_viscosity(GAS, FILLING, 60, size=120)[-1]
    halves, scale = np.diff(times), street.across / viscosity
    is_fast = street.incoming.mean() * theory.galilean_factor(GAS, FILLING) * scale >= FIRST
    is_street = is_fast and len(halves) > 2
    if is_street:
        mean, error = fhpgas.mean_and_error(halves)
        print(f"half a period, mean of {len(halves)}: {mean:.0f} +- {error:.0f} generations")
    for name, speeds in (("mean", street.speeds), ("incoming", street.incoming)):
        u, (first, *_, last) = speeds.mean(), (part.mean() for part in np.array_split(speeds, 4))
        print(f"{name} speed {u:.3f}, first {first:.3f}, at last {last:.3f},", end=" ")
        print(f"Mach {u / theory.sound_speed(GAS):.2f}")
        for wind, kind in ((0, "slow flow"), (u, "flow across this wind")):
            g = theory.galilean_factor(GAS, FILLING, wind)
            reynolds = g * u * scale
            print(f"    g of a {kind} {g:.3f}: Reynolds {reynolds:.0f}", end="")
            print(strouhal(street, times, g * speeds, reynolds) if is_street else "")
    if is_street:
        heights(street)
    elif is_fast:
        print("no vortex street yet")
    else:
        print(f"no vortex street is expected below Reynolds {FIRST}")


def strouhal(street, times, speeds, reynolds):
    """The number St of each half period with the speed during it, as the end of a line."""
    halves = zip(times, times[1:])
    during = [speeds[(street.times >= a) & (street.times <= b)].mean() for a, b in halves]
    mean, error = fhpgas.mean_and_error(street.radius / (np.diff(times) * during))
    free = 0.212 * (1 - 21.2 / reynolds)
    return f", Strouhal {mean:.3f} +- {error:.3f}, a free cylinder's {free:.3f}"


def heights(street):
    print("heights of the vortices, in radii: clockwise, counter-clockwise")
    for behind in (1, 2, 4, 6, 8, 10, 12):
        print("{:3} D behind {:+6.2f} {:+6.2f}".format(behind, *street.heights(behind)))


def draw(path, street, times):
    tall = 1 + 6.5 * street.size[1] / street.size[0]  # inches, for cells of the true shape
    most = 3 * street.incoming.mean() / street.across
    with common.axes(path, 2, 1, (9, tall / 2 + 1), height_ratios=(tall, 2)) as (field, wake):
        street.last.plot("vorticity", field, block=BLOCK, smooth=2, vmin=-most, vmax=most)
        title = f"{GAS}, d = {FILLING}, disc of {street.across} cells"
        field.set_title(f"{title}, generation {street.last.generation}")
        wake.plot(street.times, street.sides, "C0", lw=1)
        wake.plot(times, np.full(len(times), street.sides.mean()), "C1.", label="changes of sign")
        wake.set(xlabel="generations", ylabel="flow across\nin the wake")
        wake.legend(fontsize=8)


@common.experiment
def main():
    reader = common.Options("the vorticity at the end, and the flow across in the wake")
    reader.option("--radius", common.whole(8, 400), 80, 16, "of the disc, in cells")
    reader.option("--height", common.number(2, 50), 5.5, 5.5, "of the channel, in diameters")
    reader.option("--length", common.number(6, 100), 20, 20, "of the channel, in diameters")
    reader.option("--flow", common.number(0.02, 0.35), 0.3, 0.15, "the mean speed", metavar="U")
    generations, text = common.whole(100, 10_000_000), "in all, a multiple of the part"
    reader.option("--generations", generations, 60_000, 1500, text)
    text = "generations from one kick to the next"
    reader.option("--part", common.whole(10, 10_000), 200, 50, text)
    reader.option("--seed", common.whole(0, 2**31), 1, 1, "of the gas")
    text = "keep the last lattice as a scene: .toml"
    reader.word("--scene", text, common.to_write(".toml"), metavar="FILE")
    asked = reader.parse_args()
    street = Street(asked)
    columns, rows = street.size
    print(f"{GAS}, d = {FILLING}, {columns} x {rows} cells,", end=" ")
    print(f"{asked.generations} generations, seed {asked.seed},", end=" ")
    print(f"disc {street.across} cells across, {1 / asked.height:.0%} of the channel")
    times = street.crossings()
    report(street, times)
    if asked.picture:
        draw(asked.picture, street, times)
    if asked.scene:
        street.last.save(asked.scene)
