#!/usr/bin/env python3
"""Collisions by hand: what the program makes of every state of a cell, compared with the rules, the
conservation laws and theory.

All states, three cells apart, run for one generation with both chiralities. Then a gas flows past a
disc: its number of particles must stay, and only walls and disc may change its momentum. Sums over
the collisions are compared with the published formulas (Frisch 1987)."""
import common
import fhpgas
import numpy as np
from fhpgas import gas_table, theory


def collided(gas, side):
    """The states after a collision of all states, as the program computes them in cells of an odd
    row."""
    number = 1 << gas.directions
    states, x = np.zeros((3, 3 * number), np.uint8), 1 + 3 * np.arange(number)
    states[1, x] = np.arange(number)
    after = fhpgas.Lattice(states, gas=gas, chirality=side).run(1).states
    steps = enumerate(gas.steps[1])
    return sum(after[1 + down, (x + right) % (3 * number)] & 1 << i for i, (right, down) in steps)


def summed_factor(gas, d, u=0.001):
    """The Galilean factor: (xx - yy) / (density u^2) of the flux of momentum at equilibrium."""
    chances = fhpgas.equilibrium(gas, d, u)
    (xx, _), (_, yy) = fhpgas.flux(gas, chances)
    return (xx - yy) / (chances.sum(0) * u * u)


def in_a_channel(gas):
    """The numbers of particles that occur, and in how many generations walls and disc account for
    the change of the momentum."""
    solid = fhpgas.disc(fhpgas.Size(64, 24), 20, 12, 4, gas)
    lattices = [*fhpgas.draw_gas(0.2, 0.2, solid=solid, gas=gas, seed=1).every(1, 100)]
    balanced = 0
    for old, new in zip(lattices, lattices[1:]):
        lost = old.momentum - new.momentum - sum(fhpgas.forces(new).values())
        balanced += abs(lost).max() < 1e-6
    return sorted({each.particles for each in lattices}), balanced


def draw(path, gas, changed, left, right):
    states = np.zeros((5, 2 * len(changed)), np.uint8)
    states[::2, ::2] = changed, left[changed], right[changed]
    with common.axes(path, size=(1 + 0.6 * len(changed), 2.4)) as ax:
        fhpgas.Lattice(states, gas=gas).plot(ax=ax)
        names = [f"{state:02x}" for state in changed]
        heights = gas.row_distance * (4.5 - np.array([0, 2, 4]))
        ax.set(xticks=2 * np.arange(len(changed)), xticklabels=names)
        ax.set(yticks=heights, yticklabels=["state", "left", "right"])
        ax.set_title(f"collisions of {gas}")


def compare(gas, states, left, right):
    """Prints how many tables and states are as they should be."""
    tables = (("left", left), ("right", right))
    rules = sum(np.array_equal(gas.collisions(s)[: len(states)], found) for s, found in tables)
    sums = gas.number, gas.px, gas.py
    is_kept = [(of[left] == of[states]) & (of[right] == of[states]) for of in sums]
    print(f"tables that are those of the rules: {rules} of 2")
    kept = np.all(is_kept, 0).sum()
    print(f"states that conserve particles and momentum: {kept} of {len(states)}")


def print_sums(gas):
    """Prints viscosity and Galilean factor beside the published formulas."""
    for d in np.arange(1, 6) / 10:
        print(f"d {d}: viscosity, summed {theory.viscosity(gas, d):.4f}", end=" ")
        print(f"formula {gas_table.GASES[gas.name].viscosity(d):.4f},", end=" ")
        print(f"g, summed {summed_factor(gas, d):.4f}", end=" ")
        print(f"formula {theory.galilean_factor(gas, d):.4f}")


@common.experiment
def main():
    asked = common.Options("the states that collide, before and after", common.GASES).parse_args()
    gas = fhpgas.gas_named(asked.gas)
    left, right = (collided(gas, side) for side in ("left", "right"))
    states = np.arange(1 << gas.directions)
    changed = np.flatnonzero(left != states)
    print(f"{gas.name}: {len(changed)} of {len(states)} states collide\nstate   left  right")
    for state in changed:
        print(f"   {state:02x}     {left[state]:02x}     {right[state]:02x}")
    compare(gas, states, left, right)
    particles, balanced = in_a_channel(gas)
    print("past a disc: particles", *particles, end=", ")
    print(f"momentum balanced in {balanced} of 100 generations")
    if gas.name in common.FLUIDS:
        print_sums(gas)
    if asked.picture:
        draw(asked.picture, gas, changed, left, right)
