"""Lattice gases from Python: lattices as numpy's arrays, runs of the engine, fields of the
fluid and pictures::

    import fhpgas, numpy as np
    X, Y = fhpgas.positions(fhpgas.Size(512, 256))  # the places of the cells, north is up
    start = fhpgas.draw_gas(0.2, east=0.3, solid=np.hypot(X - 128, Y - 110) < 20, seed=1)
    late = start.run(1000)  # another Lattice, with late.states[y, x] and late.solid[y, x]
    late.plot("vorticity", smooth=2)
    blocks = late.blocks(8, 9)  # blocks.density[row, column], blocks.east, blocks.speed, ..
    late.save("late.toml")
    later = fhpgas.Lattice.load("late.toml").run(1000)
    mean, error = fhpgas.mean_and_error(fhpgas.side_by_side(measure, range(1, 9)))

A *filling* is the chance per direction, 0 to 1, and a *density* the particles per cell. A *gas* is
the rules of a lattice: calls that need one have it first, calls that may do without have it last.
Lengths are in cells' widths, times in generations. Input that does not fit raises a `Fault` of one
line, a ValueError. `explain(scene)` says where and why a scene is refused, and needs the standard
library only. The rest needs numpy, pictures need matplotlib, and some functions scipy. `build()`
says what engine and program are. This package is not proved."""
import importlib
import importlib.util
import sys

if sys.version_info < (3, 11):  # the first word is -m while `python3 -m fhpgas` imports the package
    why = "fhpgas needs Python 3.11 or later, and this is Python %d.%d" % sys.version_info[:2]
    raise SystemExit(why) if sys.argv[0] == "-m" else ImportError(why)

from .beside import side_by_side
from .fault import Fault
from .plans import plan
from .program import build
from .refusals import explain
from .scenes import Summary, check, with_seed

__version__ = "2.0.0"
__all__ = ["Fault", "Summary", "build", "check", "explain", "plan", "side_by_side", "with_seed"]

if importlib.util.find_spec("numpy"):
    from . import boltzmann, shapes, theory
    from .blocks import Blocks, read_table
    from .drive import Point, driven
    from .fields import Size, equilibrium, positions
    from .gases import GASES, Gas, gas_named
    from .lattice import Lattice, coarse, read_cells, run
    from .observe import SeriesMean, flux, forces, mean_and_error, mean_of_series, staggered
    from .pictures import film, plot, strip
    from .random_gas import draw_gas
    from .shapes import bitmap, disc, nozzle, polygon, porous
    from .theory import Numbers, numbers

    __all__ += ["Blocks", "GASES", "Gas", "Lattice", "Numbers", "Point", "SeriesMean", "Size"]
    __all__ += ["bitmap", "boltzmann", "coarse", "disc", "draw_gas", "driven", "equilibrium"]
    __all__ += ["film", "flux", "forces", "gas_named", "mean_and_error", "mean_of_series", "nozzle"]
    __all__ += ["numbers", "plot", "polygon", "porous", "positions", "read_cells", "read_table"]
    __all__ += ["run", "shapes", "staggered", "strip", "theory"]


def __getattr__(name: str) -> object:
    """`tiles`, which needs Dask and so is imported when it is asked for. Nothing else is missing,
    but what needs numpy if there is none."""
    if "Lattice" not in __all__:
        why = "needs numpy, and this Python has none (Debian: python3-numpy)"
        raise AttributeError(f"fhpgas.{name} {why}")
    if name == "tiles":
        return importlib.import_module("fhpgas.tiles")
    raise AttributeError(f"module 'fhpgas' has no attribute {name!r}")
