"""Sums over blocks of cells, and the fields of a fluid that they make."""
import dataclasses
import functools
import io
import pathlib
from typing import Any, ClassVar

import numpy as np

from . import forms
from .arrays import Array, Floats, Ints, Sums, array_of, read_only
from .fault import Fault, library, real
from .files import Path, read_bytes, write_whole
from .fields import AnySize, Size, number_of, pair_checked, size_of
from .gases import AnyGas, Gas, gas_named
from .limits import Quantity
from .planes import Sized
from .scenes import naming

HEADER = "  col   row    fluid particles         px         py"
MOMENTA = "px", "py"
SUMS = "fluid", "particles", *MOMENTA


class Value(Sized):
    """What is equal by value, shows itself as a picture, and is again what it was after
    pickling: the base of dataclasses with arrays."""

    PARTS: ClassVar[tuple[str, ...]]  # that make the value

    def _values(self) -> tuple[Any, ...]:
        return tuple(getattr(self, name) for name in self.PARTS)

    def __reduce__(self) -> tuple[Any, ...]:
        return type(self), self._values()

    def __eq__(self, other: object) -> bool:
        if not isinstance(other, Value) or type(self) is not type(other):
            return False
        return all(map(np.array_equal, self._values(), other._values()))

    def __hash__(self) -> int:
        return hash(tuple(np.asarray(each).tobytes() for each in self._values()))

    def plot(
        self: Any, what: Quantity | Array | None = None, ax: Any = None, **options: Any
    ) -> Any:
        """Shows the value on Axes of matplotlib: see `fhpgas.plot`."""
        from . import pictures  # which is above this module

        return pictures.plot(self, what, ax, **options)

    def save(self: Any, path: Path) -> None:
        """Writes all parts to a file, which is whole or as before.

        Parameters
        ----------
        path : path
            Of numpy's arrays, compressed (.npz), or of a lattice also a scene (.toml or without a
            suffix).

        Raises
        ------
        Fault
            If the file cannot be written, has another suffix, or is a scene that could not be read
            back: of more than 33 million cells, or a generation above 10^12.

        Examples
        --------
        >>> start = fhpgas.draw_gas(0.2, size=fhpgas.Size(64, 36), seed=1)
        >>> start.save("start.toml")
        >>> fhpgas.Lattice.load("start.toml") == start
        True
        >>> start.blocks().save("rest.npz")
        >>> fhpgas.Blocks.load("rest.npz") == start.blocks()
        True
        """
        write_whole(path, self._saved(path))

    def _saved(self: Any, path: Path, usual: str = ".npz") -> bytes:
        """The bytes of a file, by its suffix or the usual one."""
        if (pathlib.Path(path).suffix or usual) != ".npz":
            raise Fault(f"{path}: {type(self).__name__} are saved as .npz")
        return forms.to_npz(self)

    @classmethod
    def load(cls, path: Any) -> Any:
        """The value that `save` wrote to an .npz file."""
        with naming(path):
            return forms.from_npz(cls, read_bytes(path))

    to_xarray, from_xarray = forms.to_xarray, classmethod(forms.from_xarray)

    def _repr_png_(self: Any) -> bytes:
        from . import pictures

        return pictures.png(self)


@dataclasses.dataclass(frozen=True, eq=False, repr=False)
class Blocks(Value):
    """Sums over blocks of cells, as read-only arrays [row, column] with row 0 at the top.

    Blocks of several lattices are added, `sum(many)`: velocities are then means over all particles.
    Fields are floats: nan in solid blocks, and velocities also in empty ones.

    Parameters
    ----------
    fluid, particles : array of shape (rows, columns)
        The fluid cells and the particles of each block.
    px, py : array of shape (rows, columns)
        The momenta eastwards and northwards in the gas's units, as `fhpgas coarse` prints them.
    gas : Gas or str
        The gas.
    block : pair of int
        The columns and rows of a block. Blocks at the right and at the bottom may be smaller.
    size : Size
        Of the lattice.
    generation : int, optional
        Of the lattice, or of the last one that was added.
    members : int, optional
        How many lattices the sums are of.

    Raises
    ------
    Fault
        If the sums do not have one number per block.

    Examples
    --------
    >>> blocks = fhpgas.Lattice([[1, 1, 8, 0]]).blocks(2, 1)
    >>> blocks.density.tolist(), blocks.east.tolist()
    ([[1.0, 0.5]], [[1.0, -1.0]])
    """

    PARTS = *SUMS, "gas", "block", "size", "generation", "members"
    fluid: Sums
    particles: Sums
    px: Sums
    py: Sums
    gas: Gas
    block: tuple[int, int]
    size: Size
    generation: int = 0
    members: int = 1

    def __post_init__(self) -> None:
        size, block = size_of(self.size), pair_checked(self.block, "a block")
        given = {name: array_of(name, getattr(self, name)) for name in SUMS}
        number, shapes = number_of(size, block), [array.shape for array in given.values()]
        kinds = {array.dtype.kind for array in given.values()}
        if {*shapes} != {number.shape} or not kinds <= {*"iuf"}:
            has = f"{size} cells have {number} blocks of {block}"
            raise Fault(f"{has}, and the sums are arrays [row, column] of {shapes}")
        for name, array in given.items():
            kind = np.float64 if array.dtype.kind == "f" else np.int64
            self.__dict__[name] = read_only(array.astype(kind))
        self.__dict__.update(gas=gas_named(self.gas), block=block, size=size)

    def __repr__(self) -> str:
        cells = f"{number_of(self.size, self.block)} of {self.block} cells of {self.gas}"
        of = f", {self.members} members" if self.members > 1 else ""
        return f"<Blocks {cells}, generation {self.generation}{of}>"

    def __add__(self, other: "Blocks") -> "Blocks":
        """The sums of two lattices of the same blocks, with the generation of the second.
        `sum(many)` works, and its velocities are means over all particles."""
        if not isinstance(other, Blocks):
            return NotImplemented
        if (self.gas, self.block, self.size) != (other.gas, other.block, other.size):
            why = "only blocks of one gas, one size and one lattice's size can be added"
            raise Fault(f"{why}, not {self} and {other}")
        added = {name: getattr(self, name) + getattr(other, name) for name in (*SUMS, "members")}
        return dataclasses.replace(other, **added)

    def __radd__(self, other: Any) -> "Blocks":
        if not isinstance(other, int) or other:
            return NotImplemented
        return self

    def _bounds(self) -> list[Ints]:
        """The columns and the rows at which blocks begin, and at which the last ones end."""
        sides = zip(self.size, self.block)
        return [np.minimum(np.arange(0, side + step, step), side) for side, step in sides]

    @property
    def cells(self) -> Ints:
        """The cells of the blocks of all members, fluid and solid."""
        widths, heights = map(np.diff, self._bounds())
        return self.members * heights[:, None] * widths

    def most(self) -> dict[str, Array]:
        """The largest sums that the cells, the fluid ones and their particles allow."""
        of_one, of_cell = np.abs(self.gas.momenta).max(0), np.abs(self.gas.momenta).sum(0) // 2
        most = zip(of_one, of_cell)
        momenta = (np.minimum(one * self.particles, cell * self.fluid) for one, cell in most)
        numbers = {"fluid": self.cells, "particles": self.gas.directions * self.fluid}
        return numbers | dict(zip(MOMENTA, momenta))

    @functools.cached_property
    def density(self) -> Floats:
        """The particles per fluid cell."""
        return _ratio(self.particles, self.fluid)

    @property
    def filling(self) -> Floats:
        """The chance per direction, 0 to 1: the density divided by the number of directions."""
        return self.density / self.gas.directions

    @functools.cached_property
    def velocity(self) -> Floats:
        """The mean velocities [2, row, column] of the particles, eastwards and northwards, in
        cells' widths per generation."""
        momenta = (unit * sums for unit, sums in zip(self.gas.units, (self.px, self.py)))
        return read_only(np.stack([_ratio(sums, self.particles) for sums in momenta]))

    @property
    def east(self) -> Floats:
        """The mean velocity eastwards."""
        return self.velocity[0]

    @property
    def north(self) -> Floats:
        """The mean velocity northwards."""
        return self.velocity[1]

    @property
    def speed(self) -> Floats:
        """The size of the mean velocity."""
        return np.hypot(*self.velocity)

    @functools.cached_property
    def pressure(self) -> Floats:
        """The pressure per cell at equilibrium, to second order in the speed u.

        It is c^2 density (1 - k g u^2), where c is the speed of sound, k = 2 - 1/(2 c^2), and
        g = (b/12) (1 - 2d) / (1 - d) at the filling d. On the square lattice, where the stress is
        not isotropic, it is c^2 density. Per area divide by the rows' distance."""
        square, b = float((self.gas.velocities[:, 0] ** 2).mean()), self.gas.directions
        k = 0 if self.gas.is_square else 2 - 1 / (2 * square)
        with np.errstate(divide="ignore", invalid="ignore"):
            correction = k * b / 12 * (1 - 2 * self.filling) / (1 - self.filling) * self.speed**2
        return read_only(square * self.density * (1 - np.where(self.speed > 0, correction, 0)))

    @functools.cached_property
    def vorticity(self) -> Floats:
        """d north/dx - d east/dy, by differences of the blocks next to a block, of one side if
        the other is solid, empty or past a wall."""
        x, y = self.positions
        edged = np.pad(self.east, ((1, 1), (0, 0)), constant_values=np.nan)
        wrapped = np.pad(self.north, ((0, 0), (1, 1)), mode="wrap").T
        around = np.array([x[-1] - self.size[0], *x, x[0] + self.size[0]])
        past = np.array([y[0] + 1, *y, y[-1] - 1])  # nothing is past a wall, at any distance
        curl = _slope(wrapped, around).T - _slope(edged, past)
        return read_only(np.where(np.isnan(self.east), np.nan, curl))

    @property
    def edges(self) -> tuple[Floats, Floats]:
        """The edges of the blocks: x [columns + 1] eastwards, and y [rows + 1] northwards from
        the lower wall, from the top."""
        x, y = self._bounds()
        return x - 0.5 + self.gas.shift / 2, (self.size[1] - y) * self.gas.row_distance

    @property
    def positions(self) -> tuple[Floats, Floats]:
        """The places of the blocks' middles as in `fhpgas.positions`: x [column] eastwards, y
        [row] northwards from the lower wall."""
        x, y = self.edges
        return (x[1:] + x[:-1]) / 2, (y[1:] + y[:-1]) / 2

    def smooth(self, sigma: float = 1.0) -> "Blocks":
        """The sums spread by a Gaussian, periodic in x.

        Walls and solid blocks mirror particles as they are and momenta with the other sign, because
        the fluid does not slip there: a velocity that grows linearly from a wall stays as it is.
        Particles and momenta are spread alike, so velocities are means. Solid blocks stay solid.

        Parameters
        ----------
        sigma : float, optional
            The width of the Gaussian in blocks, 0 to 100.

        Returns
        -------
        Blocks
            With fractions.

        Examples
        --------
        >>> start = fhpgas.draw_gas(0.2, size=fhpgas.Size(64, 36), seed=1)
        >>> bool(start.blocks().smooth().density.std() < start.blocks().density.std())
        True
        """
        gaussian_filter = library("scipy.ndimage").gaussian_filter
        sigma, (rows, columns) = real("sigma", sigma, 0, 100), self.fluid.shape
        reach = int(4 * sigma + 0.5)  # of scipy's Gaussian
        places, signs = _mirrored(self.fluid > 0, reach)

        def spread(name: str) -> Array:
            around = getattr(self, name).astype(float)[places]
            if name in MOMENTA:
                around *= signs
            found = gaussian_filter(around, sigma)[reach : reach + rows, reach : reach + columns]
            return np.where(self.fluid > 0, found, 0)

        return dataclasses.replace(self, **{name: spread(name) for name in SUMS})

    def text(self) -> str:
        """The table as `fhpgas coarse` prints it.

        Raises
        ------
        Fault
            If the sums have fractions, because they were smoothed.
        """
        rows, columns = np.indices(self.fluid.shape)
        if self.fluid.dtype.kind == "f":
            raise Fault("a table has whole numbers, and smoothed sums have fractions")
        table = np.stack([columns, rows, *(getattr(self, name) for name in SUMS)], -1)
        lines = ("%5d %5d %8d %9d %10d %10d\n" % tuple(line) for line in table.reshape(-1, 6))
        return HEADER + "\n" + "".join(lines)


def _mirrored(is_fluid: Array, reach: int) -> tuple[tuple[Array, Array], Array]:
    """The rows and columns of blocks that are the mirror images of the ones up to `reach` blocks
    around an array, and in its solid places, and the signs of their momenta. A solid block
    mirrors what is as far from the surface, on the other side of the nearest fluid block."""
    rows, columns = is_fluid.shape
    y, x = np.arange(-reach, rows + reach), np.arange(-reach, columns + reach) % columns
    signs = (1 - 2 * (y // rows % 2))[:, None] * np.ones_like(x)
    y = np.pad(np.arange(rows), reach, "symmetric")
    around, here = is_fluid[np.ix_(y, x)], np.indices(signs.shape)
    if not around.all() and around.any():
        apart, near = library("scipy.ndimage").distance_transform_edt(~around, return_indices=True)
        far = here + np.rint((near - here) * (2 - 1 / np.maximum(apart, 1))).astype(int)
        far = far.clip(0, np.array(signs.shape)[:, None, None] - 1)
        here = np.where(around | ~around[tuple(far)], near, far)
        signs = np.where(around, 1, -1) * signs[tuple(here)]
    return (y[here[0]], x[here[1]]), signs


def _ratio(above: Array, below: Array) -> Floats:
    with np.errstate(divide="ignore", invalid="ignore"):
        return read_only(np.where(below > 0, above / below, np.nan))


def _slope(values: Floats, places: Floats) -> Floats:
    """The slopes along the first axis, at all places but the first and the last: of the parabola
    through a place and its neighbours, of a line if one of these is nan, or 0 if both are."""
    apart = np.diff(places).reshape(-1, *[1] * (values.ndim - 1))
    steps = np.diff(values, axis=0) / apart
    weights = np.where(np.isnan(steps), 0, np.abs(1 / apart))
    before, after = weights[:-1], weights[1:]
    steps = np.nan_to_num(steps)
    with np.errstate(invalid="ignore"):
        slopes = (steps[:-1] * before + steps[1:] * after) / (before + after)
    return np.nan_to_num(slopes)


def read_table(
    text: str | bytes, gas: AnyGas, block: tuple[int, int], size: AnySize, generation: int = 0
) -> Blocks:
    """The blocks of a table that `fhpgas coarse` printed.

    Parameters
    ----------
    text : str or bytes
        The table, which does not name the following.
    gas : str or Gas
        The gas.
    block : pair of int
        The columns and rows of a block.
    size : Size
        Of the lattice, which shows whether the table is whole.
    generation : int, optional
        Of the lattice.

    Returns
    -------
    Blocks

    Raises
    ------
    Fault
        If the table is not whole, or has sums that such blocks cannot have.

    Examples
    --------
    >>> start = fhpgas.draw_gas(0.2, size=fhpgas.Size(64, 36), seed=1)
    >>> text = start.blocks(8, 9).text()
    >>> fhpgas.read_table(text, "fhp1", (8, 9), start) == start.blocks(8, 9)
    True
    """
    columns, rows = number = number_of(size_of(size), pair_checked(block, "a block"))
    first, _, body = (text.encode() if isinstance(text, str) else text).partition(b"\n")
    try:
        is_whole = first == HEADER.encode() and body.count(b"\n") == rows * columns
        if not is_whole or body.translate(None, b"-0123456789 \n"):
            raise ValueError
        table = np.loadtxt(io.BytesIO(body), np.int64).reshape(rows, columns, 6)
        if (table[..., 1::-1] != np.moveaxis(np.indices(number.shape), 0, -1)).any():
            raise ValueError
    except (ValueError, OverflowError):
        what = f"no whole table of `coarse` with {columns} columns and {rows} rows of blocks"
        raise Fault(f"this is {what}") from None
    fluid, particles, px, py = np.moveaxis(table[..., 2:], -1, 0)
    blocks = Blocks(fluid, particles, px, py, gas_named(gas), block, size_of(size), generation)
    for name, most in blocks.most().items():
        if (wrong := np.abs(getattr(blocks, name)) > most).any():
            row, column = np.argwhere(wrong)[0]
            has = f"{name} {getattr(blocks, name)[row, column]}, and a block of {blocks.gas} with"
            has += f" its cells and particles at most {most[row, column]}"
            why = "the table is of another gas, size or block"
            raise Fault(f"column {column} row {row} has {has}: {why}")
    return blocks
