"""Runs in steps, and runs that continue what an earlier one kept or printed."""
from __future__ import annotations

import itertools
import pathlib
from collections.abc import Iterator
from typing import TYPE_CHECKING

import numpy as np

from .cells import cells_of
from .fault import Fault, integer
from .files import Path, plain_file, write_whole
from .limits import LAST_OF_SCENE, MOST_GENERATIONS
from .progress import counted
from .scenes import naming

if TYPE_CHECKING:
    from .lattice import Lattice


def every(
    lattice: Lattice, step: int, count: int, workers: int | None = None, progress: bool = False
) -> Iterator[Lattice]:
    """This lattice, and then lattices `step` generations apart.

    Parameters
    ----------
    lattice : Lattice
        The start.
    step : int
        Generations, 1 to 1,000,000.
    count : int
        How many steps.
    workers, progress : optional
        As in `run`.

    Yields
    ------
    Lattice
        `count + 1` of them, each computed when it is asked for.

    Examples
    --------
    >>> start = fhpgas.Lattice([[0, 1, 0, 0]])
    >>> [each.states.tolist()[0].index(1) for each in start.every(1, 4)]
    [1, 2, 3, 0, 1]
    """
    step = integer("a step", step, 1, MOST_GENERATIONS)
    last = lattice.generation + step * integer("the number of steps", count)
    return itertools.chain([lattice], _parts(lattice, last, step, workers, progress))


def _parts(
    lattice: Lattice, last: int, step: int, workers: int | None, progress: bool
) -> Iterator[Lattice]:
    """The lattices after every step, and at the last generation."""
    starts = range(lattice.generation, last, step)
    for start in counted(starts, len(starts), "part", progress):
        lattice = lattice.run(min(step, last - start), workers)
        yield lattice


def resume(lattice: Lattice, text: str | bytes) -> Lattice:
    """The lattice of cells that `fhpgas run` printed in a run that began with this lattice.

    Parameters
    ----------
    lattice : Lattice
        The start.
    text : str or bytes
        The cells. They do not show whether another chirality or seed was used.

    Returns
    -------
    Lattice

    Raises
    ------
    Fault
        If the cells cannot come from this lattice: of another size, with other solid cells,
        another number of particles, an earlier generation, or the same generation and other
        cells.

    Examples
    --------
    >>> start = fhpgas.Lattice([[0, 1, 0, 0]])
    >>> start.resume(start.run(2).text()).run(1) == start.run(3)
    True
    """
    return _continued(lattice, lattice.replace(**cells_of(text, lattice.size)))


def _continued(lattice: Lattice, later: Lattice) -> Lattice:
    """A later lattice of a run of the first one. Another raises a Fault."""
    why = "the cells are not of this lattice: "
    for name in ("size", "gas", "chirality", "seed", "fluid", "particles"):
        if (theirs := getattr(later, name)) != (own := getattr(lattice, name)):
            raise Fault(f"{why}{name} is {theirs}, and not {own}")
    if not np.array_equal(later.solid, lattice.solid):
        raise Fault(why + "other cells are solid")
    first, last = lattice.generation, later.generation
    if last < first or last == first and later != lattice:
        raise Fault(f"{why}they are of generation {last}, and it is of {first}, with other cells")
    return later


def long_run(
    lattice: Lattice,
    generations: int,
    step: int,
    kept: Path,
    workers: int | None = None,
    progress: bool = False,
) -> Iterator[Lattice]:
    """Runs in parts, each kept in a file, so the same call continues a run that was ended.

    Parameters
    ----------
    lattice : Lattice
        The start.
    generations : int
        In all.
    step : int
        Of a part, 1 to 1,000,000.
    kept : path
        The file of the lattice from which the run continues: .npz, also if it has no suffix, or
        .toml. It is tried first.
    workers, progress : optional
        As in `run`.

    Yields
    ------
    Lattice
        After every part that this call computed, when the file has it.

    Raises
    ------
    Fault
        If the file is of another run, or cannot be written, or not be read back.

    Examples
    --------
    >>> start = fhpgas.Lattice([[0, 1, 0, 0]])
    >>> [each.generation for each in start.long_run(5, 2, "kept.npz")]
    [2, 4, 5]
    """
    path = pathlib.Path(kept)
    last = lattice.generation + integer("the number of generations", generations)
    integer("the last generation", last, 0, LAST_OF_SCENE)
    step = integer("a step", step, 1, MOST_GENERATIONS)
    if plain_file(path).exists():
        found = type(lattice).load(path)
        with naming(path):
            lattice = _continued(lattice, found)

    def keep(later: Lattice) -> Lattice:
        write_whole(path, later._saved(path, ".npz"))
        return later

    return map(keep, _parts(keep(lattice), last, step, workers, progress))
