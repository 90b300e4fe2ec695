"""Solid cells as arrays [y, x] of truth values, which are combined by `|`, `&` and `~`.

A `size` is a `Size`, or what has one. Cells are named by column and row from 0 at the top left, and
lengths are in cells' widths. What a formula of the place says needs no shape:
`numpy.hypot(X - 200, Y - 220) < 40` with `X, Y = fhpgas.positions(size)`.
"""
import math
import os
import reprlib
from collections.abc import Iterable, Sequence
from typing import Any

import numpy as np

from .arrays import Ints, Mask, floats_of, mask
from .fault import Fault, integer, library, real
from .fields import CACHED, AnySize, lots_of, size_of
from .gases import AnyGas, gas_named

FAR = 1e6  # cells, of a corner of a polygon


def disc(size: AnySize, column: int, row: int, radius: float, gas: AnyGas = "fhp1") -> Mask:
    """The cells whose middles are at most `radius` from the middle of a cell.

    Parameters
    ----------
    size : Size
        Of the lattice.
    column, row : int
        The middle, a cell of the lattice. The disc continues past the last column and is cut at
        the walls.
    radius : float
        At least 0, in cells' widths.
    gas : str or Gas, optional
        Whose lattice it is.

    Returns
    -------
    array of bool of shape (rows, columns)

    Examples
    --------
    >>> int(fhpgas.disc(fhpgas.Size(9, 9), 4, 4, 1).sum())
    7
    """
    columns, rows = size_of(size)
    column = integer("the column of a disc", column, 0, columns - 1)
    row = integer("the row of a disc", row, 0, rows - 1)
    solid = np.zeros((rows, columns), bool)
    down, right = _stencil((columns, rows), row % 2, real("the radius of a disc", radius, 0), gas)
    is_inside = (0 <= row + down) & (row + down < rows)
    solid[row + down[is_inside], (column + right[is_inside]) % columns] = True
    return solid


def _stencil(size: tuple[int, int], parity: int, radius: float, gas: AnyGas) -> Ints:
    """The rows and columns [2, cells] from the middle of a disc to its cells, in even or odd rows.
    Four times the square of a distance is an integer on both lattices, so nothing is rounded."""
    (columns, rows), named = size, gas_named(gas)
    reach, across = min(rows, int(1.2 * radius) + 1), min(columns, int(radius) + 1)
    x, y = np.arange(-across, across + 1), np.arange(-reach, reach + 1)
    halves = 2 * x + (2 * named.shift * ((parity + y) % 2 - parity))[:, None]
    squares = halves**2 + (round(4 * named.row_distance**2) * y**2)[:, None]
    down, right = np.nonzero(squares <= 4 * radius * radius * (1 + 1e-12))
    return np.stack([y[down], x[right]])


def polygon(size: AnySize, corners: Iterable[Sequence[float]], gas: AnyGas = "fhp1") -> Mask:
    """The cells whose middles are inside a polygon.

    A cell on an upper or left edge belongs to it, on a lower or right edge not. Of a polygon that
    crosses itself, what lies inside an odd number of times.

    Parameters
    ----------
    size, gas
        As in `disc`.
    corners : iterable of pairs of float
        Three or more columns and rows, which need not be whole: (0, 0) is the middle of the first
        cell. The polygon continues past the last column and is cut at the walls.

    Returns
    -------
    array of bool of shape (rows, columns)

    Examples
    --------
    >>> box = fhpgas.polygon(fhpgas.Size(9, 9), [(2, 3), (5, 3), (5, 5), (2, 5)], "hpp")
    >>> np.argwhere(box).tolist()
    [[3, 2], [3, 3], [3, 4], [4, 2], [4, 3], [4, 4]]
    """
    (columns, rows), named = size_of(size), gas_named(gas)
    why = f"a polygon has three corners (column, row) or more, at most {FAR:g} away, not"
    why += f" {reprlib.repr(corners)}"
    places = floats_of("corners", corners, why)
    if places.shape[1:] != (2,) or len(places) < 3 or not (np.abs(places) <= FAR).all():
        raise Fault(why)
    crossed = []  # the rows that the edges cross, and where
    for (x0, y0), (x1, y1) in zip(places, np.roll(places, -1, 0)):
        low, high = (math.ceil(min(max(y, 0), rows)) for y in sorted((y0, y1)))
        y = np.arange(low, high)
        if len(y):
            x = x0 + (y - y0) * (x1 - x0) / (y1 - y0) - named.shift * (y % 2)
            crossed.append(np.stack([np.ceil(x).astype(int), y]))
    x, y = np.concatenate(crossed or [np.zeros((2, 0), int)], 1)
    order = np.lexsort((x, y))
    (first, end), row = x[order].reshape(-1, 2).T, y[order][::2]
    start = first % columns
    stop = start + np.minimum(end - first, columns)
    steps = np.zeros((rows, 2 * columns), np.int32)
    np.add.at(steps, (row, start), 1)
    np.add.at(steps, (row, stop), -1)
    return np.cumsum(steps, axis=1, out=steps).reshape(rows, 2, columns).any(1)


def nozzle(size: AnySize, throat: int, length: int) -> Mask:
    """A channel that narrows and widens again.

    Parameters
    ----------
    size
        As in `disc`.
    throat : int
        Open rows in the middle column, 1 to all.
    length : int
        Columns over which it narrows and widens, 1 to all.

    Returns
    -------
    array of bool of shape (rows, columns)

    Examples
    --------
    >>> (~fhpgas.nozzle(fhpgas.Size(9, 8), 2, 6)).sum(0).tolist()
    [8, 8, 6, 4, 2, 4, 6, 8, 8]
    """
    columns, rows = size_of(size)
    throat = integer("the throat of a nozzle", throat, 1, rows)
    length = integer("the length of a nozzle", length, 1, columns)
    apart = np.minimum(1, np.abs(np.arange(columns) - columns // 2) / (length / 2))
    opening = throat + np.rint((rows - throat) * apart).astype(int)
    top, y = (rows - opening) // 2, np.arange(rows)[:, None]
    return (y < top) | (y >= top + opening)


def porous(size: AnySize, share: float, radius: float, seed: int = 0, gas: AnyGas = "fhp1") -> Mask:
    """Discs at random places, until a share of all cells is solid.

    They are drawn from the raw bits of numpy's PCG64, in a stream of their own (`fields.lots_of`),
    so the same arguments draw the same medium on every machine.

    Parameters
    ----------
    size, gas
        As in `disc`.
    share : float
        Of all cells that are solid, at least, 0 to 1.
    radius : float
        Of a disc, at least 0, in cells' widths.
    seed : int, optional
        Of the places.

    Returns
    -------
    array of bool of shape (rows, columns)

    Examples
    --------
    >>> solid = fhpgas.porous(fhpgas.Size(200, 100), 0.3, 2, seed=5)
    >>> 6000 <= int(solid.sum()) < 6019
    True
    """
    columns, rows = size_of(size)
    share = real("the share of solid cells", share, 0, 1)
    radius = real("the radius of a disc", radius, 0)
    lots, solid = lots_of("porous", seed), np.zeros(rows * columns, bool)
    down, right = np.stack([_stencil((columns, rows), parity, radius, gas) for parity in (0, 1)], 1)
    wanted, many = math.ceil(share * solid.size), max(1, CACHED // down.shape[1])
    sides = np.array([columns, rows], np.uint64)
    while wanted > 0:
        places = (lots.random_raw((many, 2)) >> np.uint64(32)) * sides
        column, row = (places >> np.uint64(32)).astype(int).T[..., None]
        y, x = row + down[row[:, 0] % 2], (column + right[row[:, 0] % 2]) % columns
        is_new = (0 <= y) & (y < rows)
        is_new[is_new] = ~solid[y[is_new] * columns + x[is_new]]
        cells, firsts = np.unique((y * columns + x)[is_new], return_index=True)
        disc_of = np.nonzero(is_new)[0][firsts]
        made = np.bincount(disc_of, minlength=many).cumsum()
        last = np.searchsorted(made, wanted)  # the disc that reaches the share, or past all
        solid[cells[disc_of <= last]] = True
        wanted = wanted - int(made[-1]) if last == many else 0
    return solid.reshape(rows, columns)


def bitmap(
    size: AnySize,
    picture: Any,
    pixel: float = 1.0,
    column: int = 0,
    row: int = 0,
    gas: AnyGas = "fhp1",
) -> Mask:
    """The dark pixels of a picture.

    Parameters
    ----------
    size, gas
        As in `disc`.
    picture : path or array of bool
        A file that Pillow reads, whose pixels are dark if they are black, or darker than half of
        white, and not transparent. Or truth values [y, x], as `image < 128`.
    pixel : float, optional
        The width and height of a pixel in cells' widths.
    column, row : int, optional
        The cell at the upper left corner of the picture.

    Returns
    -------
    array of bool of shape (rows, columns)

    Raises
    ------
    Fault
        If the picture leaves the channel, its file cannot be read, or an array has greys.

    Examples
    --------
    >>> cross = [[0, 1, 0], [1, 1, 1], [0, 1, 0]]
    >>> fhpgas.bitmap(fhpgas.Size(5, 4), cross, column=1, row=1, gas="hpp").astype(int).tolist()
    [[0, 0, 0, 0, 0], [0, 0, 1, 0, 0], [0, 1, 1, 1, 0], [0, 0, 1, 0, 0]]
    """
    (columns, rows), named = size_of(size), gas_named(gas)
    dark, pixel = _dark(picture), real("the width of a pixel", pixel, 1e-9, 65536)
    y, x = np.ogrid[:rows, :columns]
    right = np.floor((x - column + named.shift * (y % 2)) / pixel + 1e-9).astype(int)
    down = np.floor((y - row + 0.5) * named.row_distance / pixel).astype(int)
    wide = math.ceil(pixel * dark.shape[1] - 1e-9)
    tall = math.ceil(pixel * len(dark) / named.row_distance - 0.5 - 1e-9)
    check_inside("the picture", (column, row, wide, tall), (columns, rows))
    inside = (0 <= right) & (right < dark.shape[1]) & (0 <= down) & (down < len(dark))
    return inside & dark[down.clip(0, len(dark) - 1), right.clip(0, dark.shape[1] - 1)]


def _dark(picture: Any) -> Mask:
    """Whether the pixels [y, x] of a picture are dark: black, or darker than half of white, and not
    transparent."""
    if not isinstance(picture, (str, os.PathLike)):
        shape = np.shape(picture)
        if len(shape) != 2 or 0 in shape:
            what = "the path of a file or an array [y, x]"
            raise Fault(f"a picture is {what}, not of the shape {shape}")
        return mask(picture)
    images = library("PIL.Image")
    try:
        with images.open(picture) as image:
            is_deep = image.mode.startswith("I")
            grey = image.point(lambda shade: shade / 256).convert("L") if is_deep else image
            shades = np.asarray(grey.convert("RGBA")).astype(int)
    except (OSError, ValueError, SyntaxError, images.DecompressionBombError) as fault:
        raise Fault(f"{picture}: {getattr(fault, 'strerror', None) or fault}") from None
    return (shades[..., :3].sum(-1) * 2 < 3 * 255) & (shades[..., 3] > 127)


def check_inside(what: str, block: Sequence[int], size: tuple[int, int]) -> None:
    """Raises a Fault if a rectangle of cells, its column, row, columns and rows, is empty or leaves
    a lattice."""
    (x, y, w, h), (columns, rows) = block, size
    if not (0 <= x and 0 <= y and 1 <= w and 1 <= h and x + w <= columns and y + h <= rows):
        channel = f"the channel of {columns} x {rows} cells"
        raise Fault(f"{what} leaves {channel} or is empty: {x} {y} {w} {h}")


def rectangles(solid: Mask) -> list[list[int]]:
    """Rectangles [x, y, w, h] that cover every solid cell once: runs along a row, joined to equal
    runs in the rows below."""
    last, found = dict[tuple[int, int], list[int]](), list[list[int]]()
    for y, row in enumerate(np.pad(solid, ((0, 0), (1, 1))).astype(np.int8)):
        ends = np.flatnonzero(np.diff(row)).tolist()
        runs = zip(ends[::2], ends[1::2])
        here = {run: last.get(run) or [run[0], y, run[1] - run[0], 0] for run in runs}
        for run, rectangle in here.items():
            rectangle[3] += 1
            found += [rectangle] if run not in last else []
        last = here
    return found
