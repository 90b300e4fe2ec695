"""What theory says of the gases: sound, the Galilean factor, viscosities and slip in the Boltzmann
approximation, and noise.

Lengths are in cells' widths, times in generations. The argument `filling` is d, above 0 and
below 1, a number or an array, and results have its shape; b is the number of directions. A
filling outside raises a Fault, and so does `hpp`, whose flows follow no fluid's equations. The
formulas are by U. Frisch, D. d'Humieres, B. Hasslacher, P. Lallemand, Y. Pomeau, J.-P. Rivet,
"Lattice gas hydrodynamics in two and three dimensions", Complex Systems 1 (1987) 649, but for
those that say otherwise. The Boltzmann approximation leaves correlations out. The viscosities
are summed here over the collisions themselves, so they are valid for every chirality."""
import warnings
from typing import Any, NamedTuple

import numpy as np

from .arrays import Floats, array_of
from .boltzmann import collision_matrix, pair_closure
from .fault import Fault, integer, real
from .fields import equilibrium
from .gas_table import GASES
from .gases import AnyGas, Chirality, Gas, chirality_named, gas_named


def sound_speed(gas: AnyGas) -> float:
    """The speed of sound, the root of the mean of c_x^2 over the directions: 1/sqrt(2) in `fhp1`.

    Examples
    --------
    >>> round(fhpgas.theory.sound_speed("fhp1"), 4)
    0.7071
    """
    return float(np.sqrt((gas_named(gas).velocities[:, 0] ** 2).mean()))


def galilean_factor(gas: AnyGas, filling: Any, wind: float = 0.0) -> Any:
    """The factor g by which u.grad u is multiplied in the momentum equation.

    It is (b/12) (1 - 2d) / (1 - d). With a `wind` of -1 to 1, for which these formulas are not
    exact, it is the factor by which the wind carries a slow flow across it, from the equilibrium of
    Fermi and Dirac: momentum flux xy / (density wind v).

    Examples
    --------
    >>> round(float(fhpgas.theory.galilean_factor("fhp1", 0.2)), 4)
    0.375
    """
    named, d = isotropic(gas), checked(filling)
    if not wind:
        return named.directions / 12 * (1 - 2 * d) / (1 - d)
    across = 1e-4
    numbers = equilibrium(named, d, real("a wind", wind, -1, 1), across)
    flux = np.tensordot(named.velocities.prod(1), numbers, 1)
    return flux / (named.directions * d * wind * across)


def isotropic(gas: AnyGas) -> Gas:
    """A gas whose flows follow the equations of a fluid. `hpp` raises a Fault."""
    named = gas_named(gas)
    if named.is_square:
        why = "its stress depends on the direction of the flow"
        raise Fault(f"{named} has no viscosity and no Galilean factor: {why}")
    return named


def checked(filling: Any) -> Floats:
    """A filling as an array of floats. Any that is not above 0 and below 1 raises a Fault."""
    d = array_of("a filling", filling)
    if d.dtype.kind not in "biuf" or not ((d > 0) & (d < 1)).all():
        raise Fault(f"a filling is the chance per direction, above 0 and below 1, not {filling!r}")
    return d.astype(float)


def relaxed(gas: AnyGas, filling: Any, chirality: Chirality, mode: Any) -> Any:
    """The share of a mode [b] that collisions undo in a generation, in the Boltzmann equation
    linearized about equal filling: the eigenvalue of the collision operator, of which the mode must
    be an eigenvector."""
    undone = collision_matrix(gas, checked(filling), chirality) @ mode
    return -(undone @ mode.conj()) / (abs(mode) ** 2).sum()


def _rotating(gas: Gas, times: int) -> Any:
    """The mode [b] of the moving directions that rotates so many times as the direction does once:
    2 is the shear, 3 the staggered mode."""
    i = np.arange(gas.directions)
    return np.where(i < 6, np.exp(1j * np.pi / 3 * times * i), 0)


def _shear(gas: AnyGas, filling: Any, chirality: Chirality) -> Any:
    named = isotropic(gas)
    share = relaxed(named, filling, chirality, _rotating(named, 2))
    return (1 / share - 1 / 2) / 4  # c^2 / (dimensions + 2), where c = 1


def viscosity(gas: AnyGas, filling: Any, chirality: Chirality = "seeded") -> Any:
    """The kinematic shear viscosity in the Boltzmann approximation.

    FHP-I (`fhp1`, seeded): 1 / (12 d (1-d)^3) - 1/8, with one chirality 1 / (16 d (1-d)^3) - 1/8.
    FHP-II (`fhp-rest`, seeded): 1 / (28 d (1-d)^3 (1 - 4d/7)) - 1/8.

    Warns
    -----
    Correlated
        If measured viscosities exceed it by more than a tenth (`is_correlated`), as
        `pair_viscosity` explains.

    Examples
    --------
    >>> round(float(fhpgas.theory.viscosity("fhp1", 0.3)), 4)
    0.6848
    """
    _warn(gas, filling, chirality)
    return _shear(gas, filling, chirality).real


class Correlated(UserWarning):
    """Correlations between particles make a measured viscosity exceed Boltzmann's by more than a
    tenth."""


def is_correlated(gas: AnyGas, filling: Any, chirality: Chirality = "seeded") -> Any:
    """Whether a measured viscosity exceeds Boltzmann's by more than a tenth, by a table of
    measurements.

    Examples
    --------
    >>> bool(fhpgas.theory.is_correlated("fhp1", 0.1))
    True
    """
    side = "left" if chirality_named(chirality) == "right" else chirality
    low, high = GASES[isotropic(gas).name].correlated[side]
    return (low < checked(filling)) & (checked(filling) < high)


def _warn(gas: AnyGas, filling: Any, chirality: Chirality) -> None:
    if np.any(is_correlated(gas, filling, chirality)):
        what = f"measured viscosities of {gas_named(gas)} ({chirality}) exceed Boltzmann's by more"
        how = "than a tenth at this filling: theory.pair_viscosity calculates by how much"
        warnings.warn(f"{what} {how}", Correlated, stacklevel=3)


def pair_viscosity(
    gas: AnyGas,
    filling: float,
    generations: int,
    chirality: Chirality = "seeded",
    triples: float = 1.0,
    size: int = 128,
) -> Floats:
    """The kinematic shear viscosity with the correlations of pairs, without a free number: ring
    kinetic theory (see T. R. Kirkpatrick, M. H. Ernst, Phys. Rev. A 44 (1991) 8051).

    A uniform stress decays as `boltzmann.pair_closure` says, which explains `chirality`, `triples`
    and `size`. It takes the time of `generations`, and `size` squared times that.

    Returns
    -------
    array of shape (generations + 1,)
        The viscosity from the stress up to each generation (`running_viscosity`). It grows as long
        as pairs still meet.

    Examples
    --------
    >>> found = fhpgas.theory.pair_viscosity("fhp1", 0.3, 40, size=64)[-1]
    >>> round(float(found / fhpgas.theory.viscosity("fhp1", 0.3)), 3)
    1.04
    """
    stress, last = isotropic(gas).velocities.prod(1), integer("generations", generations)
    pairs = pair_closure(gas, filling, stress, chirality, triples, size)
    return running_viscosity([next(pairs)[0] @ stress for _ in range(last + 1)])


def running_viscosity(stress: Any) -> Floats:
    """The kinematic shear viscosity from a uniform stress xy that decays in a gas at rest, or from
    the correlation of the stress in its noise, up to each generation: (1/2 + C(1) + .. + C(t)) / 4,
    where C(t) is the share that is left (M. S. Green, R. Kubo; docs/DERIVATION.md).

    Parameters
    ----------
    stress : array of shape (generations + 1, ..)
        At the generations 0, 1, .., at first not 0.

    Returns
    -------
    array of the same shape

    Examples
    --------
    >>> fhpgas.theory.running_viscosity([1.0, 0.5, 0.25]).tolist()
    [0.125, 0.25, 0.3125]
    """
    found = array_of("a stress", stress)
    if found.dtype.kind not in "biuf" or not (found.ndim and found.size and np.all(found[0])):
        raise Fault(f"a stress that decays is real and at first not 0, not {stress!r}")
    return np.asarray((np.cumsum(found / found[0], 0) - 1 / 2) / 4)


def odd_viscosity(gas: AnyGas, filling: Any, chirality: Chirality) -> Any:
    """The kinematic odd viscosity: negative for "left", the opposite for "right", 0 for "seeded".

    Its sign is that of the stress -p - density odd_viscosity (du/dy + dv/dx) across a row, yy, and
    -p + density odd_viscosity (du/dy + dv/dx) along it, xx.

    Examples
    --------
    >>> left, right = (fhpgas.theory.odd_viscosity("fhp1", 0.3, side) for side in ("left", "right"))
    >>> bool(left < 0), bool(abs(left + right) < 1e-12)
    (True, True)
    """
    return _shear(gas, filling, chirality).imag


def bulk_viscosity(gas: AnyGas, filling: Any) -> Any:
    """The kinematic bulk viscosity: 0 in `fhp1`, and 1 / (98 d (1-d)^4) - 1/28 in `fhp-rest`.

    Examples
    --------
    >>> float(fhpgas.theory.bulk_viscosity("fhp1", 0.3))
    0.0
    """
    return GASES[isotropic(gas).name].bulk_viscosity(checked(filling))


def slip(gas: AnyGas, filling: Any, chirality: Chirality = "seeded", along: str = "rows") -> Any:
    """K, by which a parabola ends outside the walls, in squares of the distance of rows.

    Between walls along the rows, H rows apart, a slow steady flow is the parabola that is zero at
    sqrt(H^2 / 4 + K) rows from the middle. The share of the difference between odd and even
    directions that collisions undo is m = 6 d^2 (1-d)^2, and in `fhp-rest` 9 d (1-d)^4 more. This
    is the exact stationary solution of the linear Boltzmann equation (docs/DERIVATION.md#7-slip).

    What drives the flow acts `along` "rows" or "directions", as in `driven`: K is 8 viscosity
    (1 / m - 2/3) - 1/4, or with a force along every c_i 16/3 viscosity (1 / m - 1/2) - 1/4.

    Examples
    --------
    >>> round(float(fhpgas.theory.slip("fhp1", 0.3)), 2)
    16.8
    """
    named = isotropic(gas)
    mode = _rotating(named, 3).real
    kick = sum(flips * (mode[east] - mode[west]) for east, west, flips in named.turns(along))
    m = relaxed(named, filling, chirality, mode)
    staggered = (2 + kick * (1 - m)) / m  # of a row, for a force of 1
    return 8 / 3 * _shear(named, filling, chirality).real * (staggered - 1) - 1 / 4


def noise(gas: AnyGas, filling: Any, cells: Any) -> Any:
    """The standard deviation of a mean velocity over some cells at equilibrium.

    It is sqrt((1 - d) c^2 / (b d cells)), with c the speed of sound.

    Examples
    --------
    >>> round(float(fhpgas.theory.noise("fhp1", 0.5, 3)), 4)
    0.1667
    """
    d = checked(filling)
    return sound_speed(gas) * np.sqrt((1 - d) / (gas_named(gas).directions * d * cells))


class Numbers(NamedTuple):
    """The numbers of a flow.

    Attributes
    ----------
    sound_speed, galilean_factor, viscosity : float
        Of the gas.
    mach : float
        speed / sound speed.
    reynolds : float
        g speed length / viscosity.
    viscous_time : float
        length^2 / viscosity.
    turnover_time : float
        length / (g speed), because a flow is carried by g times its velocity. If nothing is carried
        (d = 1/2) it is inf.
    """

    sound_speed: float
    galilean_factor: float
    viscosity: float
    mach: float
    reynolds: float
    viscous_time: float
    turnover_time: float


def numbers(
    gas: AnyGas, filling: float, speed: float, length: float, chirality: Chirality = "seeded"
) -> Numbers:
    """The numbers of a flow past something.

    Parameters
    ----------
    gas : str or Gas
    filling : float
    speed : float
        At most 1, in cells' widths per generation.
    length : float
        In cells' widths, above 0.
    chirality : str, optional

    Examples
    --------
    >>> round(fhpgas.numbers("fhp1", 0.3, 0.1, 80).mach, 4)
    0.1414
    """
    d, size = real("a filling", filling, 0, 1), real("a length", length)
    u, g = abs(real("a speed", speed, -1, 1)), float(galilean_factor(gas, d))
    nu, sound = float(_shear(gas, d, chirality).real), sound_speed(gas)
    _warn(gas, d, chirality)
    if size <= 0:
        raise Fault(f"a length is above 0, not {length!r}")
    carried = abs(g * u)
    turnover = size / carried if carried else float("inf")
    return Numbers(sound, g, nu, u / sound, carried * size / nu, size**2 / nu, turnover)
