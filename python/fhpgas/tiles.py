"""A lattice in tiles, in the memory of the workers of Dask: neither a machine nor a scene has the
whole::

    size = fhpgas.Size(100_000, 80_000)
    tiles = fhpgas.tiles.draw_gas(
        client, 0.2, east=0.1, size=size, tile=(8192, 4096), chirality="left", seed=1
    )
    later = tiles.run(10_000, margin=256, kept="kept")
    later.blocks(64, 50).plot("speed")
    fhpgas.film("wake.gif", (each.blocks(64, 50) for each in later.every(500, 20)), "speed")

A particle moves at most one row and one column per generation. So a tile with a margin of k cells
around it is right after k generations, and the result is the whole lattice, bit for bit. Of cuts
between rows that is proved (docs/PROVED.md). A tile begins at an even row, because odd rows lie
half a cell to the east.

The random bits of "seeded" belong to places. A part of a lattice that has whole rows draws those of
its place, so "seeded" takes tiles of whole rows. There is no `driven`, because its rule chooses
particles of the whole. docs/PERFORMANCE.md says which tiles and margins to take."""
import dataclasses
import functools
import itertools
import pathlib
from collections.abc import Iterator
from typing import Any, NamedTuple

import dask.array
import distributed
import numpy as np

from . import engine, fields
from .arrays import Ints, States, mask
from .blocks import Blocks
from .cells import SOLID, codes_of, parts_of
from .fault import Fault, integer, seed_of
from .files import Path
from .gases import AnyGas, Chirality, Gas, chirality_named, gas_named
from .lattice import Lattice
from .limits import MOST_SIDE, Quantity
from .planes import unpacked

MOST_TASKS, OF_A_TILE = 5000, 16  # that wait in the scheduler, and those of a tile and an exchange
NO_CELLS = np.empty((0, 0), np.uint8)  # by which Dask knows the type without a call


class Rules(NamedTuple):
    """What a lattice has beside its cells and their generation."""

    gas: Gas
    chirality: Chirality
    seed: int

    def lattice(self, cells: States, generation: int = 0) -> Lattice:
        states, solid = parts_of(cells)
        return Lattice(states, solid, *self, generation)


def _rules(gas: AnyGas, chirality: Chirality, seed: int) -> Rules:
    return Rules(gas_named(gas), chirality_named(chirality), seed_of(seed))


@dataclasses.dataclass(frozen=True, eq=False)
class Tiles:
    """A lattice in tiles. It does not change: `run` returns another. Tiles are equal if they are
    the same array of Dask with the same rules and generation.

    Parameters
    ----------
    client : distributed.Client
        Whose workers compute.
    cells : dask.array.Array of uint8 of shape (rows, columns)
        The state of a cell, or 128 if it is solid, a chunk per tile. All that Dask does with arrays
        can be done with it.
    rules : Rules
        The gas, chirality and seed.
    generation : int, optional
        Of all cells.
    """

    client: Any
    cells: Any
    rules: Rules
    generation: int = 0

    def _key(self) -> tuple[Any, ...]:
        return self.cells.name, self.rules, self.generation

    def __eq__(self, other: object) -> bool:
        return isinstance(other, Tiles) and self._key() == other._key()

    def __hash__(self) -> int:
        return hash(self._key())

    @property
    def size(self) -> fields.Size:
        """The numbers of columns and rows, a `Size`."""
        return fields.Size(*self.cells.shape[::-1])

    @property
    def tile(self) -> tuple[int, int]:
        """The columns and rows of a tile. The last ones may have fewer."""
        rows, columns = self.cells.chunksize
        return columns, rows

    def run(
        self, generations: int, margin: int = 256, kept: Path | None = None, interval: int = 4
    ) -> "Tiles":
        """The tiles after some generations.

        Parameters
        ----------
        generations : int
            In all.
        margin : int, optional
            Generations from one exchange of margins to the next, at most as many as the shortest
            side of a tile with a neighbour there has cells.
        kept : path, optional
            A folder that the workers and this process see. The run keeps its tiles there, so a lost
            worker costs one interval. Else its tiles are computed again from the start.
        interval : int, optional
            Exchanges from one keeping to the next. It is shortened so that some thousands of tasks
            wait in the scheduler at most.

        Returns
        -------
        Tiles
            The call returns when the last interval is sent to the workers.

        Raises
        ------
        Fault
            If the margin does not fit, before anything is drawn or computed.
        """
        generations = integer("the number of generations", generations)
        margin = min(integer("a margin", margin, 1), max(1, generations))
        self._check_margin(margin)
        most = max(1, MOST_TASKS // (OF_A_TILE * self.cells.npartitions))
        span = margin * min(integer("an interval", interval, 1), most)
        tiles = self
        for done in range(0, generations, span):
            if done:
                tiles = tiles.wait() if kept is None else tiles.save(kept)
            tiles = tiles._part(min(span, generations - done), margin)
        return tiles if kept is None else tiles.save(kept)

    def _part(self, generations: int, margin: int) -> "Tiles":
        tiles = self
        for done in range(0, generations, margin):
            tiles = tiles._step(min(margin, generations - done))
        return dataclasses.replace(tiles, cells=self.client.persist(tiles.cells))

    def _check_margin(self, margin: int) -> None:
        even = margin + margin % 2
        sides = [min(chunks) for chunks in self.cells.chunks if len(chunks) > 1]
        if sides and even > min(sides):
            why = f"the shortest side of a tile is {min(sides)}"
            raise Fault(f"a margin of {margin}, made even, does not fit: {why}")
        rows, columns = (max(chunks) + 2 * even * (len(chunks) > 1) for chunks in self.cells.chunks)
        if max(columns, rows) > MOST_SIDE:
            why = f"a lattice has at most {MOST_SIDE} columns and rows"
            raise Fault(f"a tile with its margins, {columns} x {rows}, is too large: {why}")

    def _step(self, steps: int) -> "Tiles":
        """The tiles after at most as many generations as the margin that they exchange."""
        heights, widths = self.cells.chunks
        even, around = steps + steps % 2 if len(heights) > 1 else 0, len(widths) > 1
        starts = itertools.accumulate(heights, initial=0)
        first_rows = [max(0, start - even) for start in starts]
        call = functools.partial(_advanced, self.rules, self.generation, steps, first_rows)
        boundary = {0: "none", 1: "periodic" if around else "none"}
        margins = {"depth": {0: even, 1: steps * around}, "boundary": boundary}
        known = {"meta": NO_CELLS, "allow_rechunk": False}
        cells = dask.array.map_overlap(call, self.cells, **margins, **known)
        return dataclasses.replace(self, cells=cells, generation=self.generation + steps)

    def every(self, step: int, count: int, margin: int = 256) -> Iterator["Tiles"]:
        """Yields these tiles, and then `count` times the tiles `step` generations later."""
        tiles = self.wait()
        yield tiles
        for _ in range(integer("the number of steps", count)):
            tiles = tiles.run(step, margin)
            yield tiles

    def wait(self) -> "Tiles":
        """These tiles when all are computed, in the memory of the workers. What failed in a worker
        is raised."""
        cells = self.client.persist(self.cells)
        futures = distributed.futures_of(cells)
        for each in distributed.as_completed(futures):
            if each.status == "error":
                each.result()
        return dataclasses.replace(self, cells=cells)

    def _computed(self, cells: Any) -> Any:
        return self.client.compute(cells).result()

    @property
    def particles(self) -> int:
        """The number of particles."""
        return int(self.blocks(*self.tile).particles.sum())

    def blocks(self, width: int = 64, height: int = 64) -> Blocks:
        """Sums over blocks of so many columns and rows, as of a Lattice. Cells travel to other
        workers where tiles do not begin with blocks."""
        columns, rows = fields.pair_checked((width, height), "a block")
        steps = rows, columns
        sides = (max(step, side // step * step) for step, side in zip(steps, self.cells.chunksize))
        cells = self.cells.rechunk(tuple(sides))
        ends = zip(steps, cells.chunks)
        counts = [tuple(-(-side // step) for side in chunks) for step, chunks in ends]
        call = functools.partial(_sums, self.rules, (columns, rows))
        sums = cells.map_blocks(call, new_axis=0, chunks=((4,), *counts), dtype=int)
        (fluid, particles, px, py), gas = self._computed(sums), self.rules.gas
        return Blocks(fluid, particles, px, py, gas, (columns, rows), self.size, self.generation)

    def plot(
        self,
        what: Quantity = "speed",
        ax: Any = None,
        block: tuple[int, int] = (64, 64),
        **options: Any,
    ) -> Any:
        """Shows a field of the blocks on Axes of matplotlib: see `fhpgas.plot`."""
        return self.blocks(*block).plot(what, ax, **options)

    def gather(self) -> Lattice:
        """The whole lattice, if it fits into this process and the sides of a Lattice."""
        return self.rules.lattice(self._computed(self.cells), self.generation)

    def save(self, folder: Path) -> "Tiles":
        """Lets the workers write the tiles to a folder of zarr that they and this process see.
        Returns the tiles as read from there, so one that a worker loses is read again, until other
        tiles are saved there. `load` continues from the folder, also after the scheduler ended.
        What the folder had before stays whole until the new tiles are."""
        import zarr

        path, name = str(pathlib.Path(folder).absolute()), self.cells.name
        group = zarr.open_group(path)
        # Dask 2024.12 takes the keys of futures for cells, unless a task is between
        cells = self.cells.map_blocks(np.asarray, dtype=np.uint8, meta=NO_CELLS)
        self._computed(cells.to_zarr(path, name, overwrite=True, compute=False))
        kept = {"cells": name, "generation": self.generation, "gas": self.rules.gas.name}
        group.attrs.put(kept | {"chirality": self.rules.chirality, "seed": self.rules.seed})
        for old in {*group.array_keys()} - {name}:
            del group[old]
        return load(self.client, folder)


def draw_gas(
    client: Any,
    filling: Any,
    east: Any = 0.0,
    north: Any = 0.0,
    *,
    size: fields.Size,
    tile: tuple[int, int],
    solid: Any = None,
    gas: AnyGas = "fhp1",
    chirality: Chirality = "seeded",
    seed: int = 0,
) -> Tiles:
    """The tiles of `fhpgas.draw_gas` of the same arguments, drawn by the workers when they are
    needed. Fields, and `solid` too, are arrays or functions of the places X, Y, which are sent to
    the workers. The lattice is divided evenly, into tiles of at most `tile` columns and rows, which
    are whole rows if the chirality is "seeded"."""
    rules, size = _rules(gas, chirality, seed), fields.size_of(size)
    known = {"filling": filling, "east": east, "north": north}
    known["solid"] = solid if callable(solid) else mask(False if solid is None else solid)
    for name, value in known.items():
        if not callable(value):
            known[name] = value if name == "solid" else fields.numbers_of(name, value)
            fields.check_spread(name, known[name], size.shape)
    draw = functools.partial(_drawn, rules, size, known)
    draw({None: {"array-location": [(0, 1), (0, 1)]}})  # refuses here what workers would refuse
    chunks = _divided(size, tile, rules)
    cells = dask.array.map_blocks(draw, chunks=chunks, dtype=np.uint8, meta=NO_CELLS)
    return Tiles(client, cells, rules)


def split(client: Any, lattice: Lattice, tile: tuple[int, int]) -> Tiles:
    """The tiles of a lattice, sent to the workers. `save` keeps them for the case that a worker is
    lost."""
    rules = _rules(lattice.gas, lattice.chirality, lattice.seed)
    chunks, codes = _divided(lattice.size, tile, rules), codes_of(lattice.states, lattice.solid)
    parts = [codes[place] for place in dask.array.core.slices_from_chunks(chunks)]
    tile_of, sent = functools.partial(dask.array.from_delayed, meta=NO_CELLS), client.scatter(parts)
    tiles, columns = [tile_of(*pair) for pair in zip(sent, map(np.shape, parts))], len(chunks[1])
    rows = [tiles[first : first + columns] for first in range(0, len(tiles), columns)]
    return Tiles(client, dask.array.block(rows), rules, lattice.generation)


def load(client: Any, folder: Path) -> Tiles:
    """The tiles that `Tiles.save` wrote to a folder."""
    import zarr

    try:
        group = zarr.open_group(str(pathlib.Path(folder).absolute()), mode="r")
        names = "cells", "generation", "gas", "chirality", "seed"
        name, generation, *known = (group.attrs[key] for key in names)
        cells = dask.array.from_zarr(group[name])
    except (OSError, ValueError, KeyError) as fault:
        raise Fault(f"{folder} has no saved tiles: {fault}") from None
    return Tiles(client, client.persist(cells), _rules(*known), generation)


def _divided(size: fields.Size, tile: Any, rules: Rules) -> tuple[tuple[int, ...], ...]:
    """The heights and widths of tiles of at most some columns and rows, which divide a lattice
    evenly."""
    columns, rows = fields.pair_checked(tile, "a tile")
    if rows < min(2, size.rows):
        raise Fault("a tile has at least two rows, because it has an even number of them")
    if rules.gas.draws(rules.chirality) and columns < size.columns:
        way = f"tile=({size.columns}, ..), at most {MOST_SIDE} columns, or another chirality"
        raise Fault(f'tiles of "seeded" have whole rows, as their random bits: take {way}')
    ways = (size.rows, rows - rows % 2 or 1, 2), (size.columns, columns, 1)
    sides = [-(-side // -(-side // most) // unit) * unit for side, most, unit in ways]
    return dask.array.core.normalize_chunks(sides, size.shape)


# -- what workers compute


def _drawn(rules: Rules, size: fields.Size, known: dict[str, Any], block_info: Any) -> States:
    """The cells of a block of what `fhpgas.draw_gas` draws."""
    (top, below), (left, right) = block_info[None]["array-location"]
    places = fields.positions(size, rules.gas, slice(top, below), slice(left, right))

    def here(value: Any) -> Any:
        if callable(value):
            return value(*places)
        spread = zip(value.shape, (slice(top, below), slice(left, right))[-value.ndim :])
        return value[tuple(part if side > 1 else slice(None) for side, part in spread)]

    *numbers, solid = (here(value) for value in known.values())
    numbers = [fields.numbers_of(name, value) for name, value in zip(known, numbers)]
    place = (below - top, right - left), rules.seed, (top, left), size.columns
    states = fields.drawn(rules.gas, numbers, *place)
    return np.where(mask(solid), np.uint8(SOLID), states)


def _advanced(
    rules: Rules, generation: int, steps: int, first_rows: list[int], cells: States, block_id: Any
) -> States:
    """The cells of a tile and its margins after some generations, of which the tile is right."""
    part, first_row = rules.lattice(cells, generation), first_rows[block_id[0]]
    planes = engine.advanced(part, steps, 1, first_row=first_row)
    return unpacked(planes, cells.shape[1]) | cells & np.uint8(SOLID)


def _sums(rules: Rules, block: tuple[int, int], cells: States) -> Ints:
    blocks = rules.lattice(cells).blocks(*block)
    return np.stack([blocks.fluid, blocks.particles, blocks.px, blocks.py])
