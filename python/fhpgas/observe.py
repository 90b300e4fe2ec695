"""Observables of lattices: forces on walls and obstacles, staggered momenta, the flux of momentum,
and means with their errors. Momenta are in units of a particle of speed 1."""
from collections.abc import Iterable
from typing import Any, NamedTuple

import numpy as np

from .arrays import Floats, Sums, array_of, floats_of, mask
from .fault import Fault
from .gases import AnyGas, gas_named
from .lattice import Lattice

FORCED = "upper", "lower", "solid"
WINDOW = 5  # times of correlation up to which a correlation is summed


def flux(gas: AnyGas, numbers: Any) -> Sums:
    """The flux of momentum of particles: the sum of c c times their number, over the directions.

    Parameters
    ----------
    gas : str or Gas
        The gas.
    numbers : array of shape (b, ..)
        Particles by direction, as `Lattice.counts` returns them.

    Returns
    -------
    array of shape (2, 2, ..)
        The flux. Divided by the cells it is per cell, and by the area of a cell (the distance of
        the rows) per length.

    Raises
    ------
    Fault
        If there are not as many numbers as the gas has directions.

    Examples
    --------
    >>> fhpgas.flux("hpp", [2, 0, 1, 0]).tolist()
    [[3, 0], [0, 0]]
    """
    c, given = gas_named(gas).velocities, array_of("numbers by direction", numbers)
    if given.shape[:1] != c.shape[:1]:
        has = f"{gas_named(gas)} has {len(c)} directions"
        raise Fault(f"{has}, and these numbers have the shape {given.shape}")
    return np.asarray(np.einsum("i...,ia,ib->ab...", given, c, c))


def forces(lattice: Lattice, part: Any = None) -> dict[str, Sums]:
    """The momentum that walls and obstacles received in the generation that ended with a lattice.

    A particle that moves away from a neighbouring wall or solid cell was just reflected by it, so
    the wall received twice the momentum with which it came. Nothing else changes the momentum of a
    lattice, which is proved (docs/PROVED.md). One generation has much noise, so take means over
    many. Of a driven run take `Point.before`, whose particles are as the run left them.

    Parameters
    ----------
    lattice : Lattice
        Of a generation above 0.
    part : array of bool of shape (rows, columns), optional
        Which solid cells count, for one obstacle of several.

    Returns
    -------
    dict of str to array of shape (2,)
        The momenta eastwards and northwards of the "upper" wall, the "lower" wall and the "solid"
        cells.

    Raises
    ------
    Fault
        If the generation is 0, or `part` has another shape.

    Examples
    --------
    A particle to the north-east stays in its cell and is reversed at the upper wall.

    >>> bounced = fhpgas.Lattice([[2], [0]]).run(1)
    >>> [round(float(momentum), 3) for momentum in fhpgas.forces(bounced)["upper"]]
    [1.0, 1.732]
    """
    gas = lattice.gas
    of_these = lattice.solid if part is None else mask(part)
    if not lattice.generation:
        why = "forces are those of the generation before it"
        raise Fault(f"a lattice of generation 0 has had no collision with a wall: {why}")
    if of_these.shape != lattice.shape:
        shapes = f"{of_these.shape}, and the lattice {lattice.shape}"
        raise Fault(f"the part of the solid cells has the shape {shapes}")
    links, b = lattice.walls.links(gas), gas.directions
    is_there = lattice.planes.reshape(-1)[links.word] >> links.bit & np.uint64(1) > 0
    is_there &= (links.kind < 3) | of_these.reshape(-1)[links.cell]
    struck = (links.kind * b + links.direction)[is_there]
    numbers = np.bincount(struck, minlength=4 * b).reshape(4, b)
    return dict(zip(FORCED, -2 * numbers[1:] @ gas.velocities))


def staggered(lattice: Lattice) -> tuple[int, ...]:
    """The staggered momenta, which stay constant, with walls and obstacles too.

    Each is (-1)^generation times the sum, over the lines that are parallel to a direction, of
    (-1)^line times the momentum across the line (G. Zanetti, Phys. Rev. A 40 (1989) 1539).

    Parameters
    ----------
    lattice : Lattice
        On the triangular lattice.

    Returns
    -------
    tuple of int
        The three momenta in units of sqrt(3)/2. The two slanted axes need an even width, so for an
        odd width only the first.

    Raises
    ------
    Fault
        In `hpp`.

    Examples
    --------
    A particle to the north-east in row 0, whose momentum across the rows is 1.

    >>> fhpgas.staggered(fhpgas.Lattice([[2, 0], [0, 0]]))[0]
    1
    """
    gas, found = lattice.gas, []
    if gas.is_square:
        raise Fault(f"{gas} keeps the momentum along each row instead: `px` of blocks of a row")
    columns, rows = lattice.size
    y, x = np.ogrid[:rows, :columns]
    for axis in range(1 if columns % 2 else 3):
        is_odd = (y, y - y // 2 + x, x - y // 2)[axis] % 2
        across = gas.bits[:, :6].astype(int) @ np.roll(gas.momenta[:6, 1], axis)
        of_lines = int(((1 - 2 * is_odd) * across[lattice.states]).sum())
        found.append((-1) ** lattice.generation * of_lines)
    return tuple(found)


def mean_and_error(values: Iterable[Any]) -> tuple[Any, Any]:
    """The mean of independent values, as of several seeds, and its standard error.

    Parameters
    ----------
    values : iterable of float or of arrays of one shape
        Two or more. Values of one run at several times are not independent: `mean_of_series`.

    Returns
    -------
    mean, error : float or array
        The error is the standard deviation (with n - 1) over the root of n. From n values it is
        itself uncertain by about 1 / sqrt(2 (n - 1)) of itself: 27 percent for eight.

    Raises
    ------
    Fault
        If there are fewer values than two, or they are no numbers.

    Examples
    --------
    >>> mean, error = fhpgas.mean_and_error([1.0, 2.0, 3.0, 6.0])
    >>> f"{mean} +- {error:.4f}"
    '3.0 +- 1.0801'
    """
    samples = _samples(values)
    return samples.mean(0), samples.std(0, ddof=1) / np.sqrt(len(samples))


class SeriesMean(NamedTuple):
    """The mean of a series, its standard error, and how many independent values are behind it."""

    mean: Any
    error: Any
    independent: Any


def mean_of_series(values: Iterable[Any]) -> SeriesMean:
    """The mean of values at equal intervals of time, and the error that their correlation leaves.

    The n values count for n / (2 tau) independent ones. The time of correlation tau is 1/2 and the
    sum of the normalized autocorrelations up to the first lag that is at least 5 tau (A. Sokal,
    Monte Carlo methods in statistical mechanics, 1989, section 3; N. Madras and A. Sokal, J. Stat.
    Phys. 50 (1988) 109). Leave out what came before the series was stationary.

    Parameters
    ----------
    values : iterable of float or of arrays of one shape
        Two or more.

    Returns
    -------
    SeriesMean
        The mean, the error and the number of independent values, each a float or an array. With
        fewer than some 20 independent values, and so 5 windows, the error is a guess.

    Raises
    ------
    Fault
        If there are fewer values than two, or they are no numbers.

    Examples
    --------
    Every value three times: a third of them is independent.

    >>> noise = np.random.PCG64(1).random_raw(4000) / 2.0**64
    >>> bool(3600 < fhpgas.mean_of_series(np.repeat(noise, 3)).independent < 4400)
    True
    """
    samples = _samples(values)
    number, centred = len(samples), samples - samples.mean(0)
    power = np.abs(np.fft.rfft(centred, 2 * number, axis=0)) ** 2
    correlations = np.fft.irfft(power, axis=0)[:number] / number
    with np.errstate(invalid="ignore", divide="ignore"):
        taus = np.cumsum(np.nan_to_num(correlations / correlations[0]), axis=0) - 0.5
    lags = np.arange(number).reshape(-1, *[1] * (samples.ndim - 1))
    first = np.argmax((lags >= WINDOW * taus) | (lags == number - 1), axis=0)
    tau = np.maximum(0.5, np.take_along_axis(taus, first[None], 0)[0])
    independent = np.minimum(number, number / (2 * tau))
    error = np.sqrt(correlations[0] / np.maximum(1, independent - 1))
    return SeriesMean(*(part[()] for part in (samples.mean(0), error, independent)))


def _samples(values: Iterable[Any]) -> Floats:
    why = "the mean is of numbers, or of arrays of one shape (blocks are added: sum(..))"
    samples = floats_of("values", values, why)
    if len(samples) < 2:
        raise Fault(f"a standard error needs two values or more, not {len(samples)}")
    return samples
