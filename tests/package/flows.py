"""Compares collisions, driven flows, forces and theory with plain second implementations, exact
laws, or published formulas."""

import itertools
import math

import pytest
from package_case import GASES, same, wind

import fhpgas
import numpy as np
from fhpgas import Size


class PlainKicks:
    """The kicks of `fhpgas.driven`, particle by particle, by the rule in its docstrings."""

    def __init__(self, lattice, along, seed):
        self.lots = np.random.PCG64(np.random.SeedSequence(seed, spawn_key=(2,)))
        self.pairs = [(0, int(lattice.gas.opposite[0]), 1.0)]
        if along == "directions" and not lattice.gas.is_square:
            self.pairs += [(1, 2, 0.5), (5, 4, 0.5)]  # NW to NE, SW to SE
        shape = len(self.pairs), len(lattice.states)
        self.owed = np.array([self.lot() for _ in range(shape[0] * shape[1])]).reshape(shape) - 0.5

    def lot(self):
        return (self.lots.random_raw() >> 11) * 2.0**-53

    def kicked(self, lattice, momentum):
        states = lattice.states.copy()
        for owed, (east, west, c) in zip(self.owed, self.pairs):
            for y, row in enumerate(states):
                fluid = np.flatnonzero(~lattice.solid[y])
                squares = 2 * sum(c * c for *_, c in self.pairs)
                owed[y] += momentum * c / squares * len(fluid) / lattice.fluid
                wanted = round(owed[y])
                old, new = (1 << west, 1 << east) if wanted > 0 else (1 << east, 1 << west)
                free = [x for x in fluid if row[x] & (old | new) == old]
                number = min(abs(wanted), len(free))
                for start in (fluid[int(self.lot() * len(fluid))] for _ in range(number)):
                    x = next(x for x in (*range(start, len(row)), *range(start)) if x in free)
                    row[x] ^= old | new
                    free.remove(x)
                owed[y] -= math.copysign(number, wanted)
        return states


@pytest.mark.parametrize("side", ("left", "right"))
@pytest.mark.parametrize("gas", map(fhpgas.gas_named, GASES), ids=GASES)
def test_collisions_are_those_of_the_program(gas, side):
    """All states, three cells apart on an odd row: after a generation their particles are where the program moved them."""
    states = np.zeros((3, 3 << gas.directions), int)
    states[1, 1::3] = range(1 << gas.directions)
    after = fhpgas.Lattice(states, None, gas, side).run(1).states
    moved = (np.roll(after[1 + dy], -1 - dx)[::3] for dx, dy in gas.steps[1])
    found = sum(cells & 1 << i for i, cells in enumerate(moved))
    assert found.tolist() == gas.collisions(side)[: len(found)].tolist()


def test_a_reversed_run_comes_back_bit_for_bit():
    for gas, side in itertools.product(GASES, ("left", "right", "seeded")):
        if side == "seeded" and not fhpgas.gas_named(gas).is_square:
            continue  # random bits only run forwards
        start = wind((64, 47), gas, side)
        late = start.run(100)
        assert late.reverse().run(100).reverse() == start.replace(generation=200)
        assert np.count_nonzero(late.states != start.states) > 1000


def moved(gas, states, solid):
    """The states after their particles moved one by one, by the places of the cells."""
    after, (rows, columns) = np.zeros_like(states), states.shape
    for y, x in np.argwhere(states):
        for i in np.flatnonzero(states[y, x] >> np.arange(gas.directions) & 1):
            (east, _), row = gas.velocities[i], y - gas.momenta[i, 1]
            column = round(x + gas.shift * (y % 2) + east - gas.shift * (row % 2)) % columns
            if row in (-1, rows) or solid[row, column]:
                after[y, x] |= 1 << gas.opposite[i]
            else:
                after[row, column] |= 1 << i
    return after


@pytest.mark.parametrize("side", ("left", "right", "seeded"))
@pytest.mark.parametrize("gas", GASES)
def test_the_collided_state_moves_on_to_the_next_generation(gas, side):
    """Between walls and past an obstacle, and in each cell it is one of the rules' two states."""
    start = wind((64, 47), gas, side).run(3)
    found, tables = start.collided(), map(start.gas.collisions, ("left", "right"))
    is_left, is_right = (found == table[start.states] for table in tables)
    assert start.solid.any() and (found != start.states).any()
    assert (moved(start.gas, found, start.solid) == start.run(1).states).all()
    assert (is_left | is_right).all()
    assert is_left.all() == (side == "left" or gas == "hpp")
    assert is_right.all() == (side == "right" or gas == "hpp")


def test_walls_and_obstacles_receive_what_the_gas_loses():
    """All of it, in every generation, and the staggered momenta stay as they are."""
    for gas in GASES:
        before, parts = wind((64, 47), gas), np.arange(64) < 20
        kept = () if before.gas.is_square else fhpgas.staggered(before)
        for after in itertools.islice(before.every(1, 20), 1, None):
            forces = fhpgas.forces(after)
            same(sum(forces.values()), before.momentum - after.momentum, 9)
            masks = (np.broadcast_to(parts ^ flip, (47, 64)) for flip in (False, True))
            halves = [fhpgas.forces(after, mask)["solid"] for mask in masks]
            same(sum(halves), forces["solid"], 9)
            assert (kept and fhpgas.staggered(after)) == kept
            before = after
    gas, numbers = fhpgas.GASES["fhp1"], np.arange(12).reshape(6, 2)
    plain = sum(number * np.outer(c, c) for number, c in zip(numbers[:, 1], gas.velocities))
    same(fhpgas.flux(gas, numbers)[..., 1], plain)


def test_theory_has_the_published_numbers():
    """By hand from the formulas of Frisch and others (1987)."""
    theory, fhp1, rest = fhpgas.theory, "fhp1", "fhp-rest"
    same(theory.sound_speed(fhp1), math.sqrt(1 / 2))
    same(theory.sound_speed(rest), math.sqrt(3 / 7))
    same(theory.galilean_factor(fhp1, [0.2, 0.5]), [0.375, 0])
    same(theory.galilean_factor(rest, 0.2), 0.375 * 7 / 6)
    same(theory.bulk_viscosity(fhp1, 0.2), 0)
    same(theory.bulk_viscosity(rest, 0.5), 16 / 49 - 1 / 28)
    same(theory.noise(fhp1, 0.5, 3), 1 / 6)
    same(theory.relaxed(fhp1, 0.5, "left", np.ones(6)), 0)  # particles are kept
    assert theory.isotropic(rest).name == rest
    same(theory.checked([0.2, 0.5]), [0.2, 0.5])
    assert theory.is_correlated(fhp1, [0.1, 0.3]).tolist() == [True, False]
    numbers = fhpgas.numbers(fhp1, 0.3, 0.1, 80)
    viscosity, factor = 1 / (12 * 0.3 * 0.7**3) - 1 / 8, 0.4 / 1.4
    same(numbers.mach, 0.1 * math.sqrt(2))
    same(numbers.reynolds, factor * 0.1 * 80 / viscosity)
    same(numbers.viscous_time, 80**2 / viscosity, 9)
    same(numbers.turnover_time, 80 / factor / 0.1, 9)


@pytest.mark.parametrize("gas", GASES)
def test_a_driven_run_is_repeatable_and_tells_its_force(gas):
    start = wind((64, 47), gas)
    points = [*start.driven(60, 10, force=0.001, seed=4)]
    assert points == [*fhpgas.driven(start, 60, 10, force=0.001, seed=4)]
    assert points != [*start.driven(60, 10, force=0.001, seed=5)]
    wanted = [start, *(point.after.run(10) for point in points[:-1])]
    assert [point.before for point in points] == wanted
    for point in points:
        before, after = point.before.momentum, point.after.momentum
        mean = (before + after)[0] / 2 / start.particles
        same(after - before, (2 * point.turned, 0), 9)
        assert point.after.particles == start.particles
        assert point.force == pytest.approx((after - before)[0] / 10 / start.fluid, abs=1e-7)
        assert point.velocity == pytest.approx(mean, abs=1e-7)
    mean, most = sum(point.force for point in points) / 7, 47 * 2 / 70 / start.fluid
    assert mean == pytest.approx(0.001, abs=most)
    still = fhpgas.draw_gas(0.3, solid=start.solid, gas=gas)
    for flow in (0.05, -0.05):
        *_, (_, after, *_) = still.driven(20, 10, flow=flow)
        mean = after.momentum[0] / after.particles
        assert mean == pytest.approx(flow, abs=47 / after.particles)


def test_a_kick_flips_the_particles_that_its_rule_names():
    """As a plain second implementation flips them, which owes what a row lacks to the next kick. In a thin gas rows lack particles."""
    ways = "rows", "directions"
    for gas, along, filling in itertools.product(GASES, ways, (0.3, 0.04, 0.01)):
        solid = np.arange(21 * 40).reshape(21, 40) % 3 == 1
        start = fhpgas.draw_gas(filling, solid=solid, gas=gas, seed=7)
        force = 0.1 * filling
        plain, most = PlainKicks(start, along, 6), 0.0
        for point in start.driven(60, 3, force=force, along=along, seed=6):
            wanted = plain.kicked(point.before, 3 * force * start.fluid)
            assert point.after.states.tolist() == wanted.tolist()
            most = max(most, abs(plain.owed).max())
        assert filling == 0.3 or most > 0.6, (gas, along, most)
    for flow in (0.1, -0.2):
        plain = PlainKicks(start, along, 0)
        for before, after, *_ in start.driven(12, 4, flow=flow, along=along):
            wanted = flow * start.particles - before.momentum[0]
            assert after.states.tolist() == plain.kicked(before, wanted).tolist()
            plain.owed = plain.owed.clip(-0.5, 0.5)


def test_a_force_along_the_directions_changes_each_by_its_velocity():
    """c_i to the east: E by twice as much as NE and SE, which is two thirds of the momentum. Along the rows only E changes."""
    start = fhpgas.draw_gas(0.3, size=Size(512, 256), gas="fhp-rest", seed=2)
    for along, shares in (
        ("rows", [1 / 2, 0, 0, -1 / 2, 0, 0, 0]),
        ("directions", [1 / 3, 1 / 6, -1 / 6, -1 / 3, -1 / 6, 1 / 6, 0]),
    ):
        (point,) = start.driven(0, 1, force=0.02, along=along)
        gained = point.after.counts() - point.before.counts()
        same(gained / (0.02 * start.fluid), shares, 2)
        given = point.after.momentum - point.before.momentum
        same(given, [point.force * start.fluid, 0], 9)
    for force in (0.1, -0.1):
        flow = fhpgas.boltzmann.Flow("fhp-rest", start.solid[:2, :3])
        gained = flow.forced(flow.at(0.3), force, "directions") - flow.at(0.3)
        same(gained, force * np.reshape(shares, (7, 1, 1)) * np.ones((2, 3)))
