"""Driven flows: the engine has no force, so between short runs some particles are flipped to the
east.

A particle that is flipped adds twice its momentum eastwards. Which ones are flipped is drawn at
random from a seed, in proportion to the fluid cells of the rows. A driven run is therefore
repeatable, and the force that acted is known exactly."""
from __future__ import annotations

from collections.abc import Iterator
from typing import TYPE_CHECKING, NamedTuple

import numpy as np

from .arrays import Floats, Ints, States
from .fault import Fault, integer, real, seed_of
from .fields import lots_of
from .gases import TOO_FEW
from .planes import Cells
from .progress import counted

if TYPE_CHECKING:
    from .lattice import Lattice


class Point(NamedTuple):
    """A point of a driven run.

    Attributes
    ----------
    before, after : Lattice
        Before and after particles were flipped.
    turned : int
        How many were flipped to the east, negative if to the west.
    force : float
        The momentum per fluid cell and generation that these add until the next point.
    velocity : float
        The mean flow: the mean velocity of the particles before, and half of the kick.
    """

    before: Lattice
    after: Lattice
    turned: int
    force: float
    velocity: float


def driven(
    lattice: Lattice,
    generations: int,
    every: int = 10,
    *,
    force: float | None = None,
    flow: float | None = None,
    along: str = "rows",
    seed: int = 0,
    workers: int | None = None,
    progress: bool = False,
) -> Iterator[Point]:
    """The points of a driven run: at its start, and after every `every` generations.

    A row that has too few particles to flip owes the rest to the next point. Between points the
    walls act and the drive does not, so the flow near walls and in narrow gaps depends on `every`.
    For a profile, a slip or a permeability take 1 to 4. In a porous medium kicks at even intervals
    add up in pockets one cell wide.

    Parameters
    ----------
    lattice : Lattice
        The start.
    generations : int
        A multiple of `every`.
    every : int, optional
        Generations from one point to the next.
    force : float, optional
        A body force eastwards, the momentum per fluid cell and generation, -2 to 2.
    flow : float, optional
        Or the mean velocity of the particles, -1 to 1, which is restored at each point.
    along : {"rows", "directions"}, optional
        Which particles flip. "rows" flips W to E. "directions" is a force along every c_i, as of a
        pressure gradient or in a lattice Boltzmann code: two thirds of the momentum by W to E, and
        a sixth each by NW to NE and SW to SE. The slip at walls differs (`theory.slip`).
    seed : int or numpy.random.SeedSequence, optional
        Of the flipped particles. It is another stream than `draw_gas` has of the same seed.
    workers, progress : optional
        As in `Lattice.run`.

    Yields
    ------
    Point

    Raises
    ------
    Fault
        At the call if an argument does not fit. At a point if the rows owe together more than a
        flip each and half a kick, and more than at the point before, so that the force does not
        act.

    Examples
    --------
    >>> start = fhpgas.draw_gas(0.3, size=fhpgas.Size(64, 48), seed=1)
    >>> points = list(start.driven(40, 4, flow=0.1))
    >>> abs(points[-1].velocity - 0.1) < 0.01
    True
    """
    if (force is None) == (flow is None):
        ways = "force=.. or flow=.. (--force, --flow)"
        raise Fault(f"a flow is driven either by a force or towards a mean flow: {ways}")
    every = integer("the number of generations between points", every, 1)
    if integer("the number of generations", generations) % every:
        raise Fault(f"{generations} generations are not a multiple of {every}, those of a step")
    if not lattice.particles:
        raise Fault("the lattice has no particle that could be flipped")
    if force is not None:
        force = real("a force", force, -2, 2) * every * lattice.fluid
    else:
        flow = real("a flow, the mean velocity of the particles,", flow, -1, 1)
    kicks = _Kicks(lattice, along, seed_of(seed))
    kicked = range(0, generations + 1, every)

    def points() -> Iterator[Point]:
        after = lattice
        for done in counted(kicked, len(kicked), "point", progress):
            before = after.run(every, workers) if done else after
            momentum = float(before.momentum[0])
            wanted = (flow or 0) * before.particles - momentum if force is None else force
            states, flipped, given = kicks.kicked(before.states, wanted, force is not None)
            after = before._of(cells=Cells(before.gas, states))
            acts, velocity = given / every / before.fluid, (momentum + given / 2) / before.particles
            yield Point(before, after, flipped, acts, velocity)

    return points()


class _Kicks:
    """What flips the particles of a lattice, and what its rows are owed: the flips [pair, row] that
    rounding or a lack of particles left."""

    def __init__(self, lattice: Lattice, along: str, seed: int):
        rows, columns = lattice.states.shape
        self.pairs, self.lots = lattice.gas.turns(along), lots_of("driven", seed)
        self.momenta = lattice.gas.velocities[[pair[0] for pair in self.pairs], 0]
        self.fluid = np.flatnonzero(~lattice.solid)
        self.begins = np.searchsorted(self.fluid, columns * np.arange(rows + 1))
        self.shares = np.diff(self.begins) / len(self.fluid)
        self.owed = self._uniform(len(self.pairs) * rows).reshape(len(self.pairs), rows) - 0.5
        self.debt = 0.0

    def _uniform(self, number: int) -> Floats:
        """Numbers from 0 to less than 1 with 53 random bits."""
        return (self.lots.random_raw(number) >> np.uint64(11)) * 2.0**-53

    def kicked(self, states: States, wanted: float, keeps_rest: bool) -> tuple[States, int, float]:
        """The states after a kick of about this momentum, how many particles it flipped, and its
        momentum. What is left is kept for the next kick, or if that asks for it itself only what
        rounding left."""
        after, flipped = states.copy(), []
        for owed, (east, west, flips) in zip(self.owed, self.pairs):
            owed += wanted * flips * self.shares
            numbers = self._flip(after, np.rint(owed).astype(int), 1 << east, 1 << west)
            owed -= numbers
            flipped.append(int(numbers.sum()))
        debt = float(np.maximum(np.abs(self.owed) - 0.5, 0).sum())
        asked = abs(wanted) * sum(flips for *_, flips in self.pairs)
        if debt > self.debt and debt > self.owed.size + asked / 2:
            way = "A flow from rest needs them all at once: begin with a gas that moves (east=..)"
            owed = f"the rows owe {debt:.0f} flips of {asked:.0f} per kick"
            raise Fault(f"{owed}, and have {TOO_FEW}. {way}")
        self.debt = debt
        if not keeps_rest:
            np.clip(self.owed, -0.5, 0.5, out=self.owed)
        return after, sum(flipped), float(2 * self.momenta @ flipped)

    def _flip(self, states: States, numbers: Ints, east: int, west: int) -> Ints:
        """Flips so many particles of each row from west to east, or from east to west if the number
        is negative, as far as there are any, and returns how many. From random fluid cells of the
        row the next one, eastwards, whose other direction is empty and which no other took, and
        past the row's end from its begin on."""
        rows, columns = states.shape
        wanted = np.where(numbers > 0, west, east).astype(np.uint8)[:, None]
        free = np.flatnonzero(states & np.uint8(east | west) == wanted)
        begins = np.searchsorted(free, columns * np.arange(rows + 1))
        found = np.minimum(np.abs(numbers), np.diff(begins))
        row = np.repeat(np.arange(rows), found)
        lots = (self._uniform(len(row)) * np.diff(self.begins)[row]).astype(int)
        places = np.searchsorted(free, np.sort(self.fluid[self.begins[row] + lots]))
        order = np.arange(len(row)) - columns * row  # so that no row pushes on the next one
        taken = np.maximum.accumulate(places - order) + order
        if (past := taken >= begins[row + 1]).any():
            is_left = np.ones(len(free), bool)
            is_left[taken[~past]] = False
            left, late = np.flatnonzero(is_left), row[past]
            rank = np.arange(len(late)) - np.searchsorted(late, late)
            taken[past] = left[np.searchsorted(left, begins[late]) + rank]
        states.reshape(-1)[free[taken]] ^= np.uint8(east | west)
        return np.sign(numbers) * found
