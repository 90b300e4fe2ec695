#!/usr/bin/env python3
"""What these gases keep and a fluid does not (spurious invariants): three staggered momenta, and
the momenta of the rows of HPP.

A staggered momentum is (-1)^t times the sum over the lines along an axis of (-1)^line times the
momentum across the line. In hpp a stream in one row stays in its row. In fhp1 it spreads. These
numbers are exact, so they have no errors."""
import common
import fhpgas
import numpy as np

ROWS, MIDDLE = 17, 8


def past_a_disc(gas, size, step):
    solid = fhpgas.disc(fhpgas.Size(size, size), size // 3, size // 2, size // 8, gas)
    lattice, found = fhpgas.draw_gas(0.3, 0.2, solid=solid, gas=gas, seed=1), []
    print(f"{gas} past a disc\ngeneration  eastwards  northwards  staggered")
    for later in lattice.every(step, 4):
        found.append((later.generation, *later.momentum, *fhpgas.staggered(later)))
        print("{:10}{:11.1f}{:12.1f}  ({}, {}, {})".format(*found[-1]))
    return np.array(found)


def stream(gas, size, step):
    east = np.where(np.arange(ROWS)[:, None] == MIDDLE, 0.3, 0)
    columns, found = 16 * size, []
    lattice = fhpgas.draw_gas(0.2, east, size=fhpgas.Size(columns, ROWS), gas=gas, seed=1)
    print(f"{gas}, a stream in one row: momentum eastwards of", end=" ")
    print(f"the rows {MIDDLE - 3} to {MIDDLE + 3}\ngeneration")
    for later in lattice.every(step, 4):
        found.append(later.gas.units[0] * later.blocks(columns, 1).px[:, 0])
        shown = found[-1][MIDDLE - 3 : MIDDLE + 4]
        print(f"{later.generation:10}" + "".join(f"{momentum:9.1f}" for momentum in shown))
    return found


def draw(path, momenta, streams, step):
    with common.axes(path, 1, 3, (4, 3.4)) as panels:
        label = "eastwards", "northwards", "staggered", "same", "same"
        panels[0].plot(momenta[:, 0], momenta[:, 1:], "o-", ms=3, lw=1, label=label)
        panels[0].set(xlabel="generations", ylabel="momentum", yscale="symlog")
        panels[0].set_title("fhp1 past a disc")
        panels[0].legend(fontsize=8)
        heights = np.arange(ROWS)[::-1]
        for ax, (gas, found) in zip(panels[1:], streams.items()):
            for n, row in enumerate(found):
                ax.plot(row, heights, f"C{n}o-", ms=3, lw=1, label=f"{n * step} generations")
            ax.set(xlabel="momentum eastwards of a row", ylabel="row, from below")
            ax.set_title(f"{gas}, a stream in one row")
            ax.legend(fontsize=8)


@common.experiment
def main():
    reader = common.Options("the momenta over time, and the streams")
    reader.option("--size", common.whole(16, 256), 128, 48, "columns and rows; even", metavar="N")
    reader.option("--generations", common.whole(4, 100_000), 1000, 100, "in all")
    asked = reader.parse_args()
    if asked.size % 2:
        why = "with an odd width the slanted lines close upon lines of the other sign"
        raise fhpgas.Fault(f"the size is {asked.size}: {why}")
    step = asked.generations // 4
    momenta, _ = (past_a_disc(gas, asked.size, step) for gas in ("fhp1", "fhp-rest"))
    streams = {gas: stream(gas, asked.size, step) for gas in ("hpp", "fhp1")}
    if asked.picture:
        draw(asked.picture, momenta, streams, step)
