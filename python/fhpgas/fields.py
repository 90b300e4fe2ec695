"""Fields of a gas: the places of its cells, the equilibrium of Fermi and Dirac, and states that are
drawn from it at random.

At equilibrium direction i of a cell contains a particle with the chance N_i = 1 / (1 + exp(h +
q.c_i)), where c_i is its velocity. The sum of N_i must be b d, and the sum of N_i c_i must be b d u
(b directions, filling d, velocity u), which determines h and q (U. Frisch and others, Complex
Systems 1 (1987) 649)."""
import functools
import reprlib
from collections.abc import Callable, Iterable
from typing import TYPE_CHECKING, Any, NamedTuple, TypeAlias

import numpy as np

from .arrays import Array, Floats, States, Words, array_of, read_only
from .fault import Fault, integer, seed_of
from .gases import AnyGas, Gas, gas_named

if TYPE_CHECKING:
    from .planes import Sized
Field = float | Array | Callable[[Floats, Floats], Any]
STREAMS = "porous", "driven"  # the calls beside `gas` that draw from a seed
CACHED = 1 << 17  # words of random bits, or cells, that are worked on at a time


class Size(NamedTuple):
    """The columns and rows of a lattice.

    numpy's shape of its arrays [y, x] is the other way round. So calls take a `Size`, or something
    that has one: a lattice, blocks, or an array [y, x]. They refuse a bare pair, which does not say
    what comes first.

    Examples
    --------
    >>> fhpgas.Size(columns=64, rows=47).shape
    (47, 64)
    """

    columns: int
    rows: int

    @property
    def shape(self) -> tuple[int, int]:
        """The rows and columns, as of numpy's arrays [y, x]."""
        return self.rows, self.columns

    def __str__(self) -> str:
        return f"{self.columns} x {self.rows}"


AnySize: TypeAlias = "Size | Sized | Array"


def size_of(size: AnySize) -> Size:
    """The Size that a `size` is or has, each way at least 1."""
    found = getattr(size, "size", size)
    if isinstance(size, np.ndarray) and size.ndim == 2:
        found = Size(*size.shape[::-1])
    if not isinstance(found, Size):
        why = "a size is fhpgas.Size(columns, rows), or a lattice or an array [y, x] of this size"
        raise Fault(f"{why}, not {reprlib.repr(size)}")
    return pair_checked(found, "a size")


def pair_checked(pair: Any, what: str, most: int | None = None) -> Size:
    """The columns and rows of a lattice, a block or a tile as two ints from 1 to `most`."""
    try:
        columns, rows = pair
    except (TypeError, ValueError):
        raise Fault(f"{what} is two integers, columns and rows, not {reprlib.repr(pair)}") from None
    width = integer(f"the number of columns of {what}", columns, 1, most)
    return Size(width, integer(f"the number of rows of {what}", rows, 1, most))


def block_of(size: Size, width: Any, height: Any, most: int | None = None) -> Size:
    """The columns and rows of a block as two ints from 1 to `most`. None is all of the lattice."""
    pair = tuple(side if own is None else own for side, own in zip(size, (width, height)))
    return pair_checked(pair, "a block", most)


def number_of(size: Size, block: tuple[int, int]) -> Size:
    """The columns and rows of blocks of a lattice, of which the last ones may be smaller."""
    return Size(*(-(-side // step) for side, step in zip(size, block)))


def positions(
    size: AnySize, gas: AnyGas = "fhp1", rows: slice = slice(None), columns: slice = slice(None)
) -> tuple[Floats, Floats]:
    """The places of the cells' middles, in cells' widths.

    Parameters
    ----------
    size : Size
        Of the lattice, or what has one.
    gas : str or Gas, optional
        Whose lattice it is.
    rows, columns : slice, optional
        Those that are wanted, by default all.

    Returns
    -------
    X : array of float of shape (rows, columns)
        Eastwards from the middle of the first cell.
    Y : array of float of shape (rows, 1)
        Northwards from the lower wall. Row 0 is the top.

    Examples
    --------
    >>> X, Y = fhpgas.positions(fhpgas.Size(3, 2))
    >>> X.tolist(), Y.round(3).tolist()
    ([[0.0, 1.0, 2.0], [0.5, 1.5, 2.5]], [[1.299], [0.433]])
    """
    (width, height), named = size_of(size), gas_named(gas)
    x, y = np.arange(width)[columns], np.arange(height)[rows, None]
    return x + named.shift * (y % 2), (height - 0.5 - y) * named.row_distance


def equilibrium(gas: AnyGas, filling: Any, east: Any = 0.0, north: Any = 0.0) -> Floats:
    """The chances that the directions of a cell contain a particle, at equilibrium.

    Parameters
    ----------
    gas : str or Gas
        The gas, with b directions.
    filling : float or array
        0 to 1, the mean of the chances.
    east, north : float or array, optional
        The mean velocity of the particles, in cells' widths per generation. numpy spreads all.

    Returns
    -------
    array of float of shape (b, ..)

    Raises
    ------
    Fault
        If no gas of this filling has this velocity.

    Examples
    --------
    >>> chances = fhpgas.equilibrium("fhp1", 0.2, east=0.1)
    >>> east = fhpgas.GASES["fhp1"].velocities[:, 0]
    >>> bool(abs(chances.sum() - 1.2) < 1e-9), bool(abs(east @ chances - 1.2 * 0.1) < 1e-9)
    (True, True)
    """
    named = gas_named(gas)
    known = map(numbers_of, ("filling", "east", "north"), (filling, east, north))
    d, u, v = np.broadcast_arrays(*known)
    if (wrong := ~((d >= 0) & (d <= 1))).any():
        why = f"{d[wrong][0]:g} (particles per cell are a density)"
        raise Fault(f"a filling is the chance per direction, 0 to 1, not {why}")
    if (wrong := (d == 1) & ((u != 0) | (v != 0))).any():
        raise _impossible(named, d[wrong], u[wrong], v[wrong])
    chances, some = np.empty((named.directions, *d.shape)), (d > 0) & (d < 1)
    chances[:] = d
    if some.any():
        chances[:, some] = _solved(named, d[some], u[some], v[some])
    return chances


def numbers_of(name: str, field: Any) -> Floats:
    """A field as an array of finite floats. Anything else raises a Fault with its name."""
    values = array_of(f"the field `{name}`", field)
    if values.dtype.kind not in "biuf":
        given = reprlib.repr(field)
        raise Fault(f"the field `{name}` is numbers or a function of the place, not {given}")
    if not np.isfinite(values).all():
        raise Fault(f"the field `{name}` has a value that is not finite")
    return values.astype(float, copy=False)


def check_spread(name: str, field: Array, shape: tuple[int, ...]) -> None:
    """Raises a Fault if numpy does not spread a field over the rows and columns of a lattice."""
    pairs = zip(field.shape[::-1], shape[::-1])
    if field.ndim > 2 or any(have not in (1, want) for have, want in pairs):
        cells = f"{shape[0]} rows and {shape[1]} columns"
        raise Fault(f"the field `{name}` has the shape {field.shape}, and the lattice {cells}")


def _impossible(gas: Gas, d: Array, u: Array, v: Array) -> Fault:
    return Fault(f"no {gas} of filling {d[0]:g} has the velocity {u[0]:g}, {v[0]:g}")


@np.errstate(all="ignore")  # an impossible velocity leaves the floats, and is refused
def _solved(gas: Gas, d: Floats, u: Floats, v: Floats) -> Floats:
    """Newton's method for (h, q) of all cells [cells], from their values at a small velocity, with
    steps of at most 2 so that it does not overshoot. Sums go direction by direction, without BLAS,
    so every machine rounds alike."""
    x, y = gas.velocities.T[..., None]
    weights = np.stack([np.ones_like(x), x, y, x * x, x * y, y * y], 1)
    wanted = np.stack([gas.directions * d, gas.directions * d * u, gas.directions * d * v])
    square, is_done = float((gas.velocities[:, 0] ** 2).mean()), False
    hq = np.stack([np.log(1 / d - 1), -u / square / (1 - d), -v / square / (1 - d)])
    for _ in range(200):
        chances = 1 / (1 + np.exp(np.minimum(500.0, hq[0] + hq[1] * x + hq[2] * y)))
        if is_done:
            return chances
        missing, matrix = -wanted, np.zeros((6, len(d)))
        for n, slope, weight in zip(chances, chances * (1 - chances), weights):
            missing += n * weight[:3]
            matrix += slope * weight
        # then one more step makes it exact
        is_done = np.abs(missing).max() < 1e-11
        steps = _divided(missing, matrix)
        hq += np.minimum(1, 2 / np.maximum(1e-300, np.abs(steps).max(0))) * steps
        if (lost := ~(np.abs(hq).sum(0) < 200)).any():
            raise _impossible(gas, d[lost], u[lost], v[lost])
    raise _impossible(gas, d, u, v)


def _divided(right: Floats, matrix: Floats) -> Floats:
    """The solutions [3, cells] of three linear equations whose symmetric matrix has the rows (a, b,
    c), (b, d, e), (c, e, f) of `matrix` [6, cells], by its minors in this order."""
    minors = matrix[[3, 2, 1, 0, 1, 0]] * matrix[[5, 4, 4, 5, 2, 3]]
    minors -= matrix[[4, 1, 2, 2, 0, 1]] * matrix[[4, 5, 3, 2, 4, 1]]
    (x, y, z), (u, v, w) = right, (minors[[0, 1, 2]], minors[[1, 3, 4]], minors[[2, 4, 5]])
    return (u * x + v * y + w * z) / np.asarray(sum(matrix[:3] * minors[:3]))


@functools.lru_cache(64)
def _uniform(gas: Gas, filling: float, east: float, north: float) -> Floats:
    """The chances of a gas that is alike everywhere, which an ensemble draws from over and over."""
    return read_only(equilibrium(gas, filling, east, north))


def lots_of(call: str, seed: int) -> np.random.PCG64:
    """The random bits of a call of `STREAMS`, which have nothing in common with the ones that `gas`
    and the other calls draw from the same seed: numpy's PCG64 of SeedSequence(seed,
    spawn_key=(number of the call,))."""
    key = (STREAMS.index(call) + 1,)
    return np.random.PCG64(np.random.SeedSequence(seed_of(seed), spawn_key=key))


def drawn(
    gas: Gas,
    fields: Iterable[Floats],
    shape: tuple[int, int],
    seed: int,
    first: tuple[int, int] = (0, 0),
    width: int | None = None,
) -> States:
    """States (uint8) of a `shape` of rows and columns, drawn at random from the equilibrium of
    `fields`: filling, east and north, which numpy spreads over the shape. They are those from the
    `first` row and column on of a lattice of so many columns, by default of their own.

    Direction i of a cell contains a particle if a number of 16 bits is less than 65536 times its
    chance, rounded. A row takes, direction by direction, the columns' numbers from the
    little-endian 64-bit words of numpy's PCG64(seed), and its first word is number row * b *
    ceil(columns / 4). So a cell has the same state whichever cells are drawn with it."""
    (rows, columns), (top_row, left) = shape, first
    line, skipped = -(-(width or columns) // 4), left // 4
    taken, offset = -(-(left + columns) // 4) - skipped, left % 4  # words of a line
    words = gas.directions * taken
    flat = [field.reshape((1,) * (2 - field.ndim) + field.shape) for field in fields]
    spread, height = np.broadcast_shapes(*(field.shape for field in flat)), max(1, CACHED // words)
    whole = gas.directions, rows, spread[1]
    profile = None
    if spread == (1, 1):
        profile = np.broadcast_to(_uniform(gas, *map(float, flat))[:, None, None], whole)
    elif 1 in spread:
        profile = np.broadcast_to(equilibrium(gas, *flat), whole)
    source, states = np.random.PCG64(seed), np.zeros(shape, np.uint8)
    source.advance(top_row * gas.directions * line + skipped)
    for top in range(0, rows, height):
        part, strip = states[top : top + height], slice(top, top + height)
        here = (field[strip] if len(field) > 1 else field for field in flat)
        chances = equilibrium(gas, *here) if profile is None else profile[:, strip]
        limits = np.rint(65536 * chances)
        limits = limits.astype(np.uint16 if limits.max() < 65536 else np.int32)
        lots = _lines_of(source, len(part) * gas.directions, taken, line - taken)
        lots = lots.astype("<u8", copy=False).view("<u2").reshape(len(part), gas.directions, -1)
        for i in reversed(range(gas.directions)):
            part += part
            part |= (lots[:, i, offset : offset + columns] < limits[i]).view(np.uint8)
    return states


def _lines_of(source: np.random.PCG64, lines: int, taken: int, left_out: int) -> Words:
    """The words that are taken of some lines of a source, each with so many that are left out."""
    if not left_out:
        return source.random_raw(lines * taken)
    words = np.empty((lines, taken), np.uint64)
    for each in words:
        each[:] = source.random_raw(taken)
        source.advance(left_out)
    return words
