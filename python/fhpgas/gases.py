"""The gases with what follows from their table: neighbours, mirrors, sums of states and collisions,
as docs/FORMATS.md lists them."""
import functools
import reprlib
from typing import Any, Literal, TypeAlias, cast

import numpy as np

from . import gas_table
from .arrays import Floats, Ints, States, Sums, read_only
from .fault import Fault
from .gas_table import CHIRALITIES
from .limits import DRIVES
from .reader import STATES as STATE_NUMBERS
from .reader import closest

AnyGas: TypeAlias = "Literal['fhp1', 'hpp', 'fhp-rest'] | Gas"
Chirality: TypeAlias = Literal["seeded", "left", "right"]
STATES = np.arange(128, dtype=np.uint8)
TOO_FEW = "too few particles to flip: the flow is too fast, the force too large, the gas too thin"


class Gas:
    """A gas, one of `GASES`, with b directions.

    Attributes
    ----------
    name : str
    directions : int
        b.
    momenta : array of int of shape (b, 2)
        The directions' momenta eastwards and northwards, in the units of `px` and `py`.
    units : array of shape (2,)
        These units.
    velocities : array of shape (b, 2)
        `momenta` times `units`.
    opposite : array of int of shape (b,)
        The directions reversed.
    steps : array of int of shape (2, b, 2)
        By the parity of the row, the columns and rows to the neighbour.
    row_distance, shift : float
        Rows are so far apart, and odd ones lie so far to the east.
    is_square : bool
        Whether it is on the square lattice, as `hpp` is.
    bits : array of shape (128, b)
        The particles of a state by direction.
    number, px, py : array of int of shape (128,)
        The sums of a state.
    turned : array of shape (128,)
        The states with all particles reversed.
    """

    def __init__(self, name: str):
        self.name, row = name, gas_table.GASES[name]
        momenta, units, self._cycles = row.momenta, row.units, row.cycles
        self.directions, self.row_distance = len(momenta), float(units[1])
        self.is_square = units[0] == units[1]
        self.shift = 0.0 if self.is_square else 0.5
        self.momenta: Ints = read_only(np.array(momenta))
        self.units: Sums = read_only(np.array(units))
        self.velocities: Sums = read_only(np.asarray(self.momenta * self.units))
        (x, y), odd = self.momenta.T, np.arange(2)[:, None]
        right = x * units[0] + self.shift * (odd - (odd + y) % 2)
        steps = np.stack(np.broadcast_arrays(right, -y), -1)
        self.steps = read_only(steps.astype(int))
        self.opposite = read_only(np.array([momenta.index((-x, -y)) for x, y in momenta]))
        self.bits = read_only((STATES[:, None] >> np.arange(self.directions) & 1).astype(np.uint8))
        sums = self.bits.sum(1, dtype=int), *(self.bits @ self.momenta).T
        self.number, self.px, self.py = map(read_only, sums)
        self.turned = read_only((self.bits @ (1 << self.opposite)).astype(np.uint8))

    def __repr__(self) -> str:
        return self.name

    def __reduce__(self) -> tuple[Any, ...]:
        return gas_named, (self.name,)

    def __dask_tokenize__(self) -> str:
        return self.name

    @functools.cache
    def collisions(self, side: str) -> States:
        """The states [128] after a collision, with head-on pairs that rotate to this side, "left"
        or "right"."""
        if side not in ("left", "right"):
            raise Fault(f"head-on pairs rotate left or right, not {side!r}")
        table = STATES.copy()
        for cycle in self._cycles:
            table[[*cycle]] = np.roll(cycle, -1 if side == "left" else 1)
        return read_only(table)

    @functools.cache
    def turns(self, along: str) -> tuple[tuple[int, int, float], ...]:
        """The pairs of directions between which a force to the east flips particles: the eastward
        one, the westward one that differs from it in the sign of `px` only, and how many particles
        are flipped per unit of momentum. "rows" flips W to E. "directions" changes every direction
        in proportion to its velocity c_i eastwards, as a pressure gradient does: NW to NE and SW to
        SE too."""
        if along not in DRIVES:
            raise Fault(f"a force acts along one of {', '.join(DRIVES)}, not {reprlib.repr(along)}")
        momenta = self.momenta.tolist()
        eastward = [[x, y] for x, y in momenta if x > 0 and (y == 0 or along == "directions")]
        pairs = [(momenta.index([x, y]), momenta.index([-x, y])) for x, y in eastward]
        east = self.velocities[[pair[0] for pair in pairs], 0]
        return tuple((*pair, c / 2 / (east @ east)) for pair, c in zip(pairs, east.tolist()))

    def draws(self, chirality: Chirality) -> bool:
        """Whether collisions take random bits."""
        return chirality == "seeded" and not self.is_square

    def changes(self, chirality: Chirality) -> Floats:
        """What a collision adds to the particles [128, b] of a state, on average over the sides."""
        sides = CHIRALITIES[chirality_named(chirality)]
        return np.mean([self.bits[self.collisions(side)] for side in sides], 0) - self.bits


GASES = {name: Gas(name) for name in gas_table.GASES}


def gas_named(name: AnyGas) -> Gas:
    """The gas of a name, or a gas itself.

    Parameters
    ----------
    name : str or Gas

    Returns
    -------
    Gas

    Raises
    ------
    Fault
        If there is no such gas.

    Examples
    --------
    >>> fhpgas.gas_named("hpp").directions
    4
    """
    if isinstance(name, Gas):
        return name
    if not isinstance(name, str) or name not in GASES:
        here, is_published = closest(str(name), STATE_NUMBERS)
        hint = f": {here} is {name}" if here and is_published else ""
        raise Fault(f"a gas is one of {', '.join(GASES)}, not {reprlib.repr(name)}{hint}")
    return GASES[name]


def chirality_named(name: Any) -> Chirality:
    """A chirality, "seeded", "left" or "right". Any other value raises a Fault."""
    if not isinstance(name, str) or name not in CHIRALITIES:
        raise Fault(f"a chirality is one of {', '.join(CHIRALITIES)}, not {reprlib.repr(name)}")
    return cast(Chirality, name)
