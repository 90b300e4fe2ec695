"""The table of the gases, from which all follows that the package knows of one: codes, neighbours
and mirrors (gases.py), the limits of states and the names in print (reader.py), the numbers of the
engine, and what theory adds to the collisions. It needs the standard library only."""
import dataclasses
from collections.abc import Callable
from typing import Any

UNITS = 1 / 2, 3**0.5 / 2
HEXAGON = (2, 0), (1, 1), (-1, 1), (-2, 0), (-1, -1), (1, -1)
PAIRS, TRIPLES = (0x09, 0x12, 0x24), (0x15, 0x2A)
WITH_REST = PAIRS, TRIPLES, (0x49, 0x52, 0x64), (0x55, 0x6A)
# One moving and one at rest, and two moving.
EXCHANGES = (0x41, 0x22), (0x42, 0x05), (0x44, 0x0A), (0x48, 0x14), (0x50, 0x28), (0x60, 0x11)


@dataclasses.dataclass(frozen=True)
class Row:
    """What a gas has of its own. On the square lattice it is no fluid, and has no formulas."""

    momenta: tuple[tuple[int, int], ...]  # of its directions, eastwards and northwards
    units: tuple[float, float]  # of the momenta
    cycles: tuple[tuple[int, ...], ...]  # each state rotates left into the next, the last into [0]
    in_print: tuple[str, ...]  # what it is called there, in small letters and without hyphens
    # Published formulas at a filling d (theory.py sums the viscosity over the collisions instead),
    # and by chirality the fillings from .. to .. at which measured viscosities are `Correlated`, in
    # shear waves of 128 and 256 rows.
    viscosity: Callable[[Any], Any] | None = None  # of "seeded"
    bulk_viscosity: Callable[[Any], Any] = lambda d: 0.0 * d
    correlated: dict[str, tuple[float, float]] = dataclasses.field(default_factory=dict)


# In the order of their numbers in include/fhpgas.h.
GASES = {
    "fhp1": Row(
        momenta=HEXAGON,
        units=UNITS,
        cycles=(PAIRS, TRIPLES),
        in_print=("fhpi",),
        viscosity=lambda d: 1 / (12 * d * (1 - d) ** 3) - 1 / 8,
        correlated={"seeded": (0.0, 0.19), "left": (0.0, 0.2)},
    ),
    "hpp": Row(((1, 0), (0, 1), (-1, 0), (0, -1)), (1, 1), ((0x05, 0x0A),), ("hpp",)),
    "fhp-rest": Row(
        momenta=(*HEXAGON, (0, 0)),
        units=UNITS,
        cycles=WITH_REST + EXCHANGES,
        in_print=("fhp2", "fhpii"),
        viscosity=lambda d: 1 / (28 * d * (1 - d) ** 3 * (1 - 4 * d / 7)) - 1 / 8,
        bulk_viscosity=lambda d: 1 / (98 * d * (1 - d) ** 4) - 1 / 28,
        correlated={"seeded": (0.08, 0.65), "left": (0.05, 0.65)},
    ),
}
# The sides to which pairs rotate, by chirality, in the order of the header too.
CHIRALITIES = {"seeded": ("left", "right"), "left": ("left",), "right": ("right",)}
