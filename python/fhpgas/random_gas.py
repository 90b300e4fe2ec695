"""Gases that are drawn at random."""
import warnings
from typing import Any

import numpy as np

from . import fields
from .arrays import Mask, mask
from .fault import Fault, seed_of
from .gases import AnyGas, Chirality, gas_named
from .lattice import Lattice
from .theory import sound_speed


def draw_gas(
    filling: fields.Field,
    east: fields.Field = 0.0,
    north: fields.Field = 0.0,
    *,
    size: "fields.AnySize | None" = None,
    solid: Any = None,
    gas: AnyGas = "fhp1",
    chirality: Chirality = "seeded",
    seed: int = 0,
) -> Lattice:
    """A gas that is drawn at random from the equilibrium of Fermi and Dirac.

    The same arguments draw the same lattice on every machine. A gas that is faster than sound
    somewhere is drawn with a warning.

    Parameters
    ----------
    filling : float, array or function
        The chance per direction, 0 to 1. An array is spread over the cells [y, x], so [rows, 1] is
        a profile across the channel. A function is called with the places X, Y of `positions`.
    east, north : float, array or function, optional
        The mean velocity of the particles, in cells' widths per generation.
    size : Size, optional
        It may be left out if an argument has it.
    solid : array of bool of shape (rows, columns), optional
        The solid cells.
    gas, chirality : optional
        As in `Lattice`.
    seed : int or numpy.random.SeedSequence, optional
        Of the draw, and of the lattice. Two gases of one seed are no independent samples, also if
        they differ in filling or velocity: the particles of the thinner one are particles of the
        denser. So a sweep takes another seed for every member, as `SeedSequence(1).spawn(n)` does.
        The same seed of `porous` or `driven` is another stream of random bits.

    Returns
    -------
    Lattice

    Raises
    ------
    Fault
        If the arguments do not fit together, or no gas of a filling has a velocity.

    Examples
    --------
    >>> start = fhpgas.draw_gas(0.2, east=0.3, size=fhpgas.Size(512, 256), seed=1)
    >>> bool(abs(start.particles / start.states.size - 6 * 0.2) < 0.01)
    True
    >>> bool(abs(start.momentum[0] / start.particles - 0.3) < 0.01)
    True
    """
    named, walls = gas_named(gas), mask(False if solid is None else solid)
    known = {"filling": filling, "east": east, "north": north}
    shapes = [np.shape(field) for field in known.values() if not callable(field)]
    rows, columns = _shape_of(size, walls, shapes)
    is_placed = any(map(callable, known.values()))
    places = fields.positions(fields.Size(columns, rows), named) if is_placed else ()
    found = [field(*places) if callable(field) else field for field in known.values()]
    values = [fields.numbers_of(name, field) for name, field in zip(known, found)]
    for name, value in zip((*known, "solid"), (*values, walls)):
        fields.check_spread(name, value, (rows, columns))
    states = fields.drawn(named, values, (rows, columns), seed_of(seed))
    if (mach := float(np.hypot(values[1], values[2]).max()) / sound_speed(named)) > 1:
        warnings.warn(f"the gas is faster than sound, Mach {mach:.2f}", stacklevel=2)
    cells = np.where(walls, np.uint8(0), states)
    return Lattice(cells, np.broadcast_to(walls, cells.shape), named, chirality, seed)


def _shape_of(size: Any, solid: Mask, shapes: list[tuple[int, ...]]) -> tuple[int, ...]:
    """The rows and columns of a gas: of its size, its solid cells, or fields that have both."""
    if size is not None:
        return fields.size_of(size).shape
    try:
        shape = solid.shape or np.broadcast_shapes(*shapes)
    except ValueError:
        names = ", ".join(map(str, shapes))
        raise Fault(f"the fields have the shapes {names}, which do not fit together") from None
    if len(shape) != 2 or not solid.ndim and 1 in shape:
        raise Fault("the size is not known: draw_gas(.., size=Size(columns, rows))")
    return shape
