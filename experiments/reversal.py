#!/usr/bin/env python3
"""Reversal: a gas runs, all its particles are reversed, and it comes back bit for bit. With one
of them not reversed it does not.

A dense letter L in a thin gas spreads with chirality left, and runs back with chirality right
(`Lattice.reverse`). In the table two gases that differ by one flipped particle run forwards. After
t generations at most 1 + 3 t (t + 1) cells differ, in hpp 1 + 2 t (t + 1)."""
import common
import fhpgas
import numpy as np

TIMES = 1, 2, 5, 10, 20, 50, 100, 200


def letter(gas, size, seed=1):
    """A dense letter L in a thin gas."""
    (y, x), lines, arm = np.ogrid[:size, :size], size // 3, size // 8
    is_inside = (lines <= x) & (x < 2 * lines) & (lines <= y) & (y < 2 * lines)
    is_letter = is_inside & ((x < lines + arm) | (y >= 2 * lines - arm))
    return fhpgas.draw_gas(np.where(is_letter, 0.8, 0.05), gas=gas, chirality="left", seed=seed)


def flipped(lattice):
    """The lattice with one particle flipped from east to west, in the first cell after the middle
    that has one."""
    states, east, west = lattice.states.copy(), 1, 1 << lattice.gas.opposite[0]
    y, x = np.argwhere(states[len(states) // 2 :] & (east | west) == east)[0]
    states[len(states) // 2 + y, x] ^= east | west
    return lattice.replace(states=states)


def draw(path, shown, growth):
    titles = "start", "before the way back", "back, all reversed", "back, one not"
    look = dict(block=(2, 2), vmin=0, vmax=shown[0].gas.directions / 2, colorbar=False)
    times, numbers, most = zip(*growth)
    with common.axes(path, 1, 5, (3.2, 3.2)) as panels:
        for ax, lattice, title in zip(panels, shown, titles):
            lattice.plot("density", ax, **look)
            ax.set_title(title)
        panels[-1].loglog(times, most, "C1", lw=1, label="cone of one cell per generation")
        panels[-1].loglog(times, numbers, "C0o-", ms=3, label="measured")
        panels[-1].set(xlabel="generations", title="cells that differ")
        panels[-1].legend(fontsize=8, loc="upper left")


@common.experiment
def main():
    reader = common.Options("the four states, and the growth of a difference", common.GASES)
    reader.option("--size", common.whole(40, 2048), 256, 64, "columns and rows")
    reader.option("--generations", common.whole(1, 10_000), 200, 60, "each way")
    asked = reader.parse_args()
    start = letter(asked.gas, asked.size)
    shown = [start, late := start.run(asked.generations)]
    print(f"{start.particles} particles in {asked.size**2} cells;", end=" ")
    print(f"there and back {asked.generations} generations each")
    for name, lattice in (("all particles reversed", late), ("and one of them not", flipped(late))):
        shown.append(lattice.reverse().run(asked.generations).reverse())
        number = np.count_nonzero(shown[-1].states != start.states)
        print(f"{name}: {number} cells differ from the start")
    other, sides = flipped(start), 2 if start.gas.is_square else 3
    print("generations  cells that differ    most")
    growth = []
    for time in TIMES:
        number = np.count_nonzero(start.run(time).states != other.run(time).states)
        growth.append((time, number, min(asked.size**2, 1 + sides * time * (time + 1))))
        print("{:11}{:19}{:8}".format(*growth[-1]))
    if asked.picture:
        draw(asked.picture, shown, growth)
