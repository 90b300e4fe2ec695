"""Boltzmann's equation for the gases, solved without noise: what theory says of a flow if
correlations between particles are left out::

    flow = boltzmann.Flow("fhp1", np.zeros((64, 1)))  # solid [y, x]: 64 rows, alike along x
    for chances in flow.every(flow.at(0.2, 0.1), 100, 4):  # from a filling and a velocity
        east, north = flow.velocity(chances)  # [y, x]

`chances` [direction, y, x] are the chances that the directions of a cell contain a particle. Walls,
obstacles and collisions are the program's. The equation is that of U. Frisch and others, Complex
Systems 1 (1987) 649. `collision_matrix` and `generation_matrix` are its linear form, for small
deviations from an equal filling, and `pair_closure` is one step beyond it, which keeps the
correlations of pairs (docs/DERIVATION.md)."""
from collections.abc import Iterator
from typing import Any

import numpy as np
from numpy.typing import NDArray

from .arrays import Floats, array_of
from .fault import Fault, integer, real
from .fields import equilibrium
from .gas_table import CHIRALITIES, TRIPLES
from .gases import STATES, TOO_FEW, AnyGas, Chirality, Gas, chirality_named, gas_named
from .streaming import streamed


def collision_matrix(gas: AnyGas, filling: Any, chirality: Chirality = "seeded") -> Floats:
    """What a collision adds to small deviations of the chances from an equal filling, a number or
    an array [..] above 0 and below 1: the matrix [.., b, b] by which the deviations [b] are
    multiplied."""
    named, d = gas_named(gas), array_of("a filling", filling)[..., None, None]
    chance = np.where(named.bits, d, 1 - d).prod(-1, keepdims=True)
    slopes = chance * np.where(named.bits, 1 / d, -1 / (1 - d))
    return np.asarray(named.changes(chirality).T @ slopes)


def generation_matrix(
    gas: AnyGas, filling: Any, wave: Any, chirality: Chirality = "seeded"
) -> NDArray[np.complex128]:
    """What a generation makes of plane waves of small deviations from an equal filling, without
    walls: the matrix [.., b, b] by which the chances [b] of the wave vectors `wave` [.., 2]
    (eastwards and northwards, per cell's width) are multiplied. An eigenvalue exp(-r - i w) is a
    mode that fades at the rate r and moves with the speed w / abs(wave)."""
    named = gas_named(gas)
    streamed = np.exp(-1j * (np.asarray(wave, float) @ named.velocities.T))
    collided = np.eye(named.directions) + collision_matrix(named, filling, chirality)
    return np.asarray(streamed[..., None] * collided)


def pair_closure(
    gas: AnyGas,
    filling: float,
    start: Any,
    chirality: Chirality = "seeded",
    triples: float = 1.0,
    size: int = 128,
) -> Iterator[tuple[Floats, Floats]]:
    """What becomes of a small uniform deviation of the chances from an equal filling, if pairs of
    particles remember each other wherever they are, and three particles do not.

    Parameters
    ----------
    gas : str or Gas
    filling : float
        Above 0 and below 1.
    start : array of shape (b,)
        The deviations at first, of which all later ones are linear functions.
    chirality : str, optional
    triples : float, optional
        The chance that three particles at equal angles collide, 1 in the program's gases.
    size : int, optional
        The gas is periodic after so many cells along both axes of `pairs`. Until `size` / 2
        generations this changes nothing, and little until pairs have spread so far.

    Yields
    ------
    chances : array of shape (b,)
        The deviations at the generations 0, 1, ..
    pairs : array of shape (b, b, size, size)
        The correlations of direction i of a cell with direction j of the cell that is y steps to
        the north-east (in `hpp` north) and x steps to the east, periodic.

    Raises
    ------
    Fault
        At the call if an argument does not fit.

    Examples
    --------
    Until pairs that collided meet again, a shear decays as in Boltzmann's equation.

    >>> shear = fhpgas.gas_named("fhp1").velocities.prod(1)
    >>> pairs = fhpgas.boltzmann.pair_closure("fhp1", 0.3, shear)
    >>> [round(float(next(pairs)[0] @ shear / (shear @ shear)), 4) for _ in range(4)]
    [1.0, 0.6913, 0.4779, 0.3312]
    """
    named, d, cells = gas_named(gas), real("a filling", filling, 0, 1), integer("a size", size, 2)
    chances, number = array_of("a start", start), named.directions
    if not 0 < d < 1:
        raise Fault(f"a filling that deviates is above 0 and below 1, not {filling!r}")
    if chances.shape != (number,) or chances.dtype.kind not in "biuf":
        raise Fault(f"a start of {named} has {number} real numbers, not {start!r}")
    collision = _pair_collision(named, d, chirality, real("a chance of triples", triples, 0, 1))
    return _pairs(named, collision, chances.astype(float), np.zeros((number, number, cells, cells)))


def _pair_collision(gas: Gas, d: float, chirality: Chirality, triples: float) -> Floats:
    """What a collision makes of small deviations of the chances of a cell and of the correlations
    of its pairs (i, j), i < j: the matrix by which both [b + b(b-1)/2] are multiplied."""
    states = STATES[: 1 << gas.directions]
    deviations = gas.bits[states] - d
    i, j = np.triu_indices(gas.directions, 1)
    moments = np.hstack((deviations, deviations[:, i] * deviations[:, j]))
    tables = [gas.collisions(side)[states] for side in CHIRALITIES[chirality_named(chirality)]]
    rotated = np.mean([moments[table] for table in tables], 0)
    collide = np.where(np.isin(states & 63, TRIPLES), triples, 1.0)[:, None]
    after = collide * rotated + (1 - collide) * moments
    chance = np.where(gas.bits[states], d, 1 - d).prod(1, keepdims=True)
    variances = (d * (1 - d)) ** np.repeat([1, 2], [gas.directions, len(i)])
    return np.asarray(after.T @ (chance * moments / variances))


def _pairs(
    gas: Gas, collision: Floats, chances: Floats, pairs: Floats
) -> Iterator[tuple[Floats, Floats]]:
    number = gas.directions
    i, j = np.triu_indices(number, 1)
    east, north = gas.momenta.T
    steps = np.stack((north, east if gas.is_square else (east - north) // 2), 1)
    single = collision[:number, :number]
    while True:
        yield chances, pairs
        met = collision @ np.concatenate((chances, pairs[i, j, 0, 0]))
        apart = (single @ pairs.reshape(number, -1)).reshape(number, number, -1)
        apart = (single @ apart).reshape(pairs.shape)
        apart[..., 0, 0] = 0.0
        apart[i, j, 0, 0] = apart[j, i, 0, 0] = met[number:]
        chances, pairs = met[:number], np.empty_like(pairs)
        for a, b in np.ndindex(number, number):
            pairs[a, b] = np.roll(apart[a, b], tuple(steps[b] - steps[a]), (0, 1))


class Flow:
    """A channel of a gas, periodic in x, between walls above and below.

    Parameters
    ----------
    gas : str or Gas
    solid : array of shape (rows, columns)
        The solid cells, row 0 at the top.
    chirality : str, optional
    has_walls : bool, optional
        Without walls it is periodic in y too, unlike the program's channels, and its rows must be
        even.

    Examples
    --------
    A shear wave of 128 rows fades at the rate of `theory.viscosity`, up to a percent.

    >>> flow = fhpgas.boltzmann.Flow("fhp1", np.zeros((128, 1)), has_walls=False)
    >>> wave = np.sin(2 * np.pi * np.arange(128)[:, None] / 128)
    >>> _, *chances = flow.every(flow.at(0.3, 1e-4 * wave), 100, 2)
    >>> before, after = (float(np.abs(flow.velocity(each)[0]).max()) for each in chances)
    >>> rate = np.log(before / after) / 100 / (2 * np.pi / 128 / 0.75**0.5) ** 2
    >>> bool(abs(rate / fhpgas.theory.viscosity("fhp1", 0.3) - 1) < 0.01)
    True
    """

    def __init__(
        self, gas: AnyGas, solid: Any, chirality: Chirality = "seeded", has_walls: bool = True
    ):
        self.gas, self.solid = gas_named(gas), array_of("solid cells", solid).astype(bool)
        if self.solid.ndim != 2 or not self.solid.size:
            raise Fault(f"solid cells are an array [y, x], not one of the shape {self.solid.shape}")
        if len(self.solid) % 2 and not has_walls:
            raise Fault(f"a gas without walls has an even number of rows, not {len(self.solid)}")
        collide = (change := self.gas.changes(chirality)).any(1)
        self._full, self._change = self.gas.bits[collide] > 0, change[collide]
        places = np.arange(self.gas.directions * self.solid.size)
        places = places.reshape(-1, *self.solid.shape)
        self._sources = streamed(self.gas, self.solid, places, has_walls)

    def at(self, filling: Any, east: Any = 0.0, north: Any = 0.0) -> Floats:
        """The chances at equilibrium, for a filling and a velocity that numpy spreads over the
        cells [y, x]."""
        fields = (np.broadcast_to(field, self.solid.shape) for field in (filling, east, north))
        return np.where(self.solid, 0.0, equilibrium(self.gas, *fields))

    def collided(self, chances: Floats) -> Floats:
        """The chances after a collision, before they stream."""
        empty, after = 1 - chances, chances.copy()
        for full, change in zip(self._full, self._change):
            met = np.where(full[:, None, None], chances, empty).prod(0)
            after += change[:, None, None] * met
        return after

    def step(self, chances: Floats) -> Floats:
        """The chances one generation later."""
        return self.collided(chances).ravel()[self._sources]

    def every(self, chances: Floats, step: int, count: int) -> Iterator[Floats]:
        """Yields these chances, and then `count` times the chances `step` generations later, as
        `Lattice.every` does."""
        yield chances
        for _ in range(count):
            for _ in range(step):
                chances = self.step(chances)
            yield chances

    def driven(
        self, chances: Floats, count: int, every: int, force: float, along: str = "rows"
    ) -> Iterator[tuple[Floats, Floats]]:
        """Yields the chances before and after a force acts that adds up to `force` per fluid cell
        and generation: at the start, and then `count` times after every `every` generations, as
        `fhpgas.driven` does."""
        for _ in range(count + 1):
            kicked = self.forced(chances, every * force, along)
            yield chances, kicked
            *_, chances = self.every(kicked, every, 1)

    def forced(self, chances: Floats, force: float, along: str = "rows") -> Floats:
        """The chances after a force that adds this momentum eastwards to every fluid cell, `along`
        the rows or the directions as `fhpgas.driven` does. A chance that would leave 0 to 1 raises
        a Fault."""
        after = chances.copy()
        for east, west, flips in self.gas.turns(along):
            after[east] += force * flips * ~self.solid
            after[west] -= force * flips * ~self.solid
        if after.min() < 0 or after.max() > 1:
            y, x = np.argwhere(((after < 0) | (after > 1)).any(0))[0]
            raise Fault(f"row {y} column {x} has {TOO_FEW}")
        return after

    def density(self, chances: Floats) -> Floats:
        """The particles of the cells [y, x]."""
        return chances.sum(0)

    def momentum(self, chances: Floats) -> Floats:
        """The momentum eastwards and northwards [2, y, x] of the cells, in units of a particle of
        speed 1."""
        return np.tensordot(self.gas.velocities.T, chances, 1)

    def velocity(self, chances: Floats) -> Floats:
        """The mean velocity eastwards and northwards [2, y, x] of the particles, nan where a cell
        is solid or empty."""
        with np.errstate(invalid="ignore"):
            return np.asarray(self.momentum(chances) / self.density(chances))
