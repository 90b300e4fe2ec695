"""The lattice of a gas: its cells as numpy arrays, its runs, its pictures and its files."""
import dataclasses
import functools
import pathlib
import sys
from typing import Any, TypeAlias

import numpy as np

from . import drive, engine, fields, forms, limits, long_runs, streaming
from .arrays import Array, Ints, Mask, States, Sums, Words, array_of, mask, read_only
from .blocks import Blocks, Value, read_table
from .cells import CODES, cells_of, codes_of, lines_of, parts_of
from .fault import Fault, integer, seed_of
from .fields import AnySize
from .files import Path, is_npz
from .gases import GASES, AnyGas, Chirality, Gas, chirality_named, gas_named
from .planes import Cells, Walls, block_ones
from .plans import planned
from .program import call, program_path
from .reader import KEYS, Refused, read
from .scenes import Scene, height_of, keys_of, naming, scene_bytes, summary, text_of

Side: TypeAlias = int | None  # of a block; None is all
OTHER = {"left": "right", "right": "left", "seeded": "seeded"}


@dataclasses.dataclass(frozen=True, init=False, eq=False, repr=False)
class Lattice(Value):
    """The cells of a gas at a generation. A lattice does not change: `run` and its like return
    another. numpy takes its states for it.

    Parameters
    ----------
    states : array of int of shape (rows, columns)
        1 to 65536 cells each way, row 0 at the top. Bit i is a particle in direction i: E, NE, NW,
        W, SW, SE, then rest if the gas has it, or in `hpp` E, N, W, S. North is up.
    solid : array of bool of shape (rows, columns), optional
        The solid cells, whose states are 0. By default none.
    gas : str or Gas, optional
        One of `GASES`, such as "fhp1".
    chirality : {"seeded", "left", "right"}, optional
        The side to which head-on pairs rotate.
    seed : int or numpy.random.SeedSequence, optional
        Of the random bits of "seeded", 0 to 2^63 - 1.
    generation : int, optional
        0 to 10^12.

    Raises
    ------
    Fault
        If a lattice cannot have these values.

    Examples
    --------
    A particle to the east.

    >>> late = fhpgas.Lattice([[0, 1, 0, 0]]).run(2)
    >>> late, late.states.tolist()
    (<Lattice fhp1 seeded 4 x 1, generation 2, 1 particles>, [[0, 0, 0, 1]])
    """

    PARTS = "states", "solid", "gas", "chirality", "seed", "generation"
    KEPT = "cells", "walls", *PARTS[2:]
    cells: Cells
    walls: Walls
    gas: Gas
    chirality: Chirality
    seed: int
    generation: int

    def __init__(
        self,
        states: Any,
        solid: Any = None,
        gas: AnyGas = "fhp1",
        chirality: Chirality = "seeded",
        seed: int = 0,
        generation: int = 0,
    ):
        if isinstance(states, Lattice):
            raise Fault("a lattice does not change, so it needs no copy: see `replace`")
        named, given = gas_named(gas), array_of("states", states)
        walls, shape = np.zeros(given.shape, bool) if solid is None else mask(solid), given.shape
        is_of_cells = all(1 <= side <= limits.MOST_SIDE for side in shape) and len(shape) == 2
        if not is_of_cells or walls.shape != shape:
            what = f"arrays [y, x] of one shape, 1 to {limits.MOST_SIDE} each way"
            raise Fault(f"states and solid cells are {what}, not {shape} and {walls.shape}")
        cells = Cells(named, _states_of(given, named))
        if (both := walls & (cells.states > 0)).any():
            (y, x), way = np.argwhere(both)[0], "numpy.where(solid, 0, states) clears such cells"
            raise Fault(f"row {y} column {x} is solid and contains a particle: {way}")
        generation = integer("a generation", generation, 0, limits.MOST_GENERATION)
        values = cells, Walls(walls), named, chirality_named(chirality), seed_of(seed), generation
        vars(self).update(zip(self.KEPT, values))

    def _of(self, **parts: Any) -> "Lattice":
        """The same lattice with other parts, which are known to fit the rest."""
        made = object.__new__(Lattice)
        vars(made).update({name: getattr(self, name) for name in self.KEPT} | parts)
        return made

    @property
    def states(self) -> States:
        """The states of the cells [y, x]."""
        return self.cells.states

    @property
    def solid(self) -> Mask:
        """Whether the cells [y, x] are solid."""
        return self.walls.solid

    @property
    def planes(self) -> Words:
        """The states as bits [y, direction, word], as `include/fhpgas.h` describes them."""
        return self.cells.planes

    @classmethod
    def load(cls, scene: Scene) -> "Lattice":
        """The lattice of a scene, or of an .npz file that `save` wrote. Without the program a scene
        can only be a map, as `save` writes it.

        Parameters
        ----------
        scene : str or path
            As in `check`.

        Returns
        -------
        Lattice

        Raises
        ------
        Fault
            If the scene is refused, with the program's line.

        Examples
        --------
        >>> fhpgas.Lattice.load('gas = "hpp"\\ncells = ["01.."]').states.tolist()
        [[1, 0]]
        """
        text = scene_bytes(scene)
        with naming(scene):
            if is_npz(text):
                return forms.from_npz(cls, text)
            try:
                program_path()
            except Fault as missing:
                return cls(**_map_of(text, missing))
            return _run(text, 0)

    def replace(self, **changes: Any) -> "Lattice":
        """The same lattice with other values. A run of it continues with the random bits that come
        next.

        Parameters
        ----------
        **changes
            `states`, `solid`, `gas`, `chirality`, `seed` or `generation`. Arrays that do not change
            are shared.

        Returns
        -------
        Lattice

        Examples
        --------
        >>> fhpgas.Lattice([[1, 0]]).replace(states=[[0, 8]]).states.tolist()
        [[0, 8]]
        """
        made = Lattice(**{name: getattr(self, name) for name in self.PARTS} | changes)
        same = ["walls"] * ("solid" not in changes)
        same += ["cells"] * (not changes.keys() & {"states", "gas"})
        return made._of(**{name: getattr(self, name) for name in same})

    def __array__(self, dtype: Any = None, copy: bool | None = None) -> Array:
        found = np.array(self.states, dtype) if copy else np.asarray(self.states, dtype)
        if copy is False and found is not self.states:
            raise ValueError(f"states are uint8, and {found.dtype} of them is a copy")
        return found

    @property
    def size(self) -> fields.Size:
        """The numbers of columns and rows, a `Size`."""
        return fields.Size(*self.shape[::-1])

    @property
    def shape(self) -> tuple[int, ...]:
        """The numbers of rows and columns, as of numpy's arrays [y, x]."""
        return self.cells.shape

    @property
    def particles(self) -> int:
        """The number of particles."""
        return int(self.cells.numbers.sum())

    @property
    def fluid(self) -> int:
        """The number of cells that are not solid."""
        return self.walls.fluid

    @functools.cached_property
    def momentum(self) -> Sums:
        """The momentum [east, north] of all particles, in units of a particle of speed 1."""
        if engine.library():
            return read_only(engine.sums(self, *self.size)[2:, 0, 0] * self.gas.units)
        return read_only(self.counts() @ self.gas.velocities)

    def counts(self, width: Side = None, height: Side = None) -> Ints:
        """The numbers of particles by direction.

        Parameters
        ----------
        width, height : int, optional
            The columns and rows of a block, None for all.

        Returns
        -------
        array of int of shape (b,) or (b, rows, columns)
            Of all cells if neither is passed, or of blocks.

        Examples
        --------
        >>> fhpgas.Lattice([[1, 9, 0]]).counts().tolist()
        [2, 0, 0, 1, 0, 0]
        """
        if width is None and height is None:
            return self.cells.numbers
        block = fields.block_of(self.size, width, height)
        return block_ones(self.planes, self.size.columns, *block)

    def blocks(self, width: Side = 8, height: Side = 9) -> Blocks:
        """Sums over blocks of cells.

        Parameters
        ----------
        width, height : int or None, optional
            The columns and rows of a block, None for all: `blocks(None, 1)` is a profile across the
            channel. Blocks of 8 x 9 cells of the triangular lattice are nearly square.

        Returns
        -------
        Blocks

        Examples
        --------
        >>> fhpgas.Lattice([[1, 9, 0], [0, 0, 32]]).blocks(None, 1).particles.tolist()
        [[3], [1]]
        """
        block = fields.block_of(self.size, width, height)
        if engine.library() and block[0] % 8:
            fluid, particles, px, py = engine.sums(self, *block)
        else:
            (fluid,) = block_ones(self.walls.open, self.size.columns, *block)
            particles = (numbers := self.counts(*block)).sum(0)
            px, py = np.tensordot(self.gas.momenta, numbers, (0, 0))
        return Blocks(fluid, particles, px, py, self.gas, block, self.size, self.generation)

    def __repr__(self) -> str:
        has = f"generation {self.generation}, {self.particles} particles"
        return f"<Lattice {self.gas} {self.chirality} {self.size}, {has}>"

    def text(self) -> str:
        """The cells as `fhpgas run` prints them."""
        first = f"generation {self.generation} particles {self.particles}\n"
        return first + lines_of(codes_of(self.states, self.solid)).decode()

    def __sizeof__(self) -> int:
        return object.__sizeof__(self) + sys.getsizeof(self.cells) + self.solid.nbytes

    def scene(self) -> str:
        """The text of the scene that has this lattice, a map."""
        return self._scene().decode()

    def _saved(self, path: Path, usual: str = ".toml") -> bytes:
        suffix = pathlib.Path(path).suffix or usual
        if suffix not in (".toml", ".npz"):
            raise Fault(f"{path}: a lattice is saved as .toml or .npz")
        return self._scene() if suffix == ".toml" else super()._saved(path, usual)

    def _scene(self) -> bytes:
        integer("the generation of a scene", self.generation, 0, limits.LAST_OF_SCENE)
        if limits.map_bytes(*self.size) > limits.MOST_BYTES:
            why = f"longer than the {limits.MOST_BYTES} bytes that the program reads"
            raise Fault(f"a scene of {self.size} cells is {why}: save them as .npz")
        keys = {"version": 2, "gas": self.gas.name, "chirality": self.chirality}
        keys |= {"seed": self.seed, "generation": self.generation}
        rows = lines_of(codes_of(self.states, self.solid), b'    "', b'",\n')
        return b"".join([text_of(keys).encode(), b"cells = [\n", rows, b"]\n"])

    def run(
        self, generations: int, workers: int | None = None, progress: bool = False
    ) -> "Lattice":
        """The lattice after some generations.

        Parameters
        ----------
        generations : int
            0 to 1,000,000.
        workers : int, optional
            Threads that compute strips of a large lattice, by default one per core that this
            process may use. It changes only the time.
        progress : bool, optional
            Whether a bar of tqdm counts the parts of the run.

        Returns
        -------
        Lattice

        Raises
        ------
        Fault
            If the package has no engine for this system.

        Examples
        --------
        A head-on pair rotates to the left.

        >>> pair = fhpgas.Lattice([[0] * 4, [0, 9, 0, 0], [0] * 4], chirality="left")
        >>> np.argwhere(pair.run(1).states).tolist()
        [[0, 2], [2, 1]]
        """
        integer("the generation at which a run begins", self.generation, 0, limits.LAST_OF_SCENE)
        generations = integer("the number of generations", generations, 0, limits.MOST_GENERATIONS)
        planes = engine.advanced(self, generations, workers, progress)
        cells = Cells(self.gas, planes=planes, shape=self.shape)
        return self._of(cells=cells, generation=self.generation + generations)

    def coarse(
        self, generations: int, width: Side = 8, height: Side = 9, workers: int | None = None
    ) -> Blocks:
        """The blocks of the lattice after some generations.

        Parameters
        ----------
        generations : int
            0 to 1,000,000.
        width, height : int or None, optional
            As in `blocks`.
        workers : int, optional
            As in `run`.

        Returns
        -------
        Blocks

        Examples
        --------
        >>> start = fhpgas.draw_gas(0.2, size=fhpgas.Size(64, 36), seed=1)
        >>> start.coarse(10) == start.run(10).blocks()
        True
        """
        block = fields.block_of(self.size, width, height)
        return self.run(generations, workers).blocks(*block)

    def reverse(self) -> "Lattice":
        """The lattice with all particles reversed.

        A generation collides and then moves. Backwards it moves and then collides, so the particles
        collide before they are reversed, and a collision to the left is undone by one to the right.

        Returns
        -------
        Lattice
            `lattice.run(n).reverse().run(n).reverse()` has the states of `lattice`, bit for bit: of
            the definitions this is proved (docs/PROVED.md, `runs_lead_back`).

        Raises
        ------
        Fault
            If the chirality is "seeded", because random bits only run forwards (but not in `hpp`,
            which has none).

        Examples
        --------
        >>> start = fhpgas.draw_gas(0.2, size=fhpgas.Size(64, 36), chirality="left", seed=1)
        >>> back = start.run(50).reverse().run(50).reverse()
        >>> bool((back.states == start.states).all())
        True
        """
        if self.gas.draws(self.chirality):
            why = 'its random bits only run forwards: take "left" or "right"'
            raise Fault(f'a run with chirality "seeded" cannot be reversed, because {why}')
        after = self.gas.collisions("right" if self.chirality == "right" else "left")[self.states]
        return self.replace(states=self.gas.turned[after], chirality=OTHER[self.chirality])

    collided, driven = streaming.collided, drive.driven
    every, long_run, resume = long_runs.every, long_runs.long_run, long_runs.resume


def _states_of(values: Array, gas: Gas) -> States:
    """Values as states of a gas, in a new array. Others raise a Fault."""
    allowed = f"a state of {gas} is an integer from 0 to {(1 << gas.directions) - 1}"
    if values.dtype.kind not in "iub":
        raise Fault(f"{allowed}, and these are of the type {values.dtype}")
    if values.min() < 0 or int(values.max()) >> gas.directions:
        y, x = np.argwhere((values < 0) | (values >= 1 << gas.directions))[0]
        raise Fault(f"{allowed}, and row {y} column {x} has {values[y, x]}")
    return values.astype(np.uint8, order="C")


def read_cells(
    text: str | bytes, gas: AnyGas, size: AnySize, chirality: Chirality = "seeded", seed: int = 0
) -> Lattice:
    """The lattice of cells that `fhpgas run` printed.

    Parameters
    ----------
    text : str or bytes
        The cells. They do not name the following.
    gas : str or Gas
        The gas.
    size : Size
        Of the lattice, which shows whether rows are lost.
    chirality, seed : optional
        As in `Lattice`.

    Returns
    -------
    Lattice

    Raises
    ------
    Fault
        If the text is not whole.

    Examples
    --------
    >>> text = "generation 1 particles 1\\n..01\\n"
    >>> fhpgas.read_cells(text, "fhp1", fhpgas.Size(2, 1)).states.tolist()
    [[0, 1]]
    """
    cells = cells_of(text, fields.size_of(size))
    return Lattice(**cells, gas=gas, chirality=chirality, seed=seed)


def _kept(keys: dict[str, Any]) -> dict[str, Any]:
    """The keys of a scene that its lattice has too. One that a later program reads and this package
    does not know would be lost without a word, so it is refused."""
    if strange := sorted(keys.keys() - set(KEYS)):
        raise Fault(f"the package does not know the key `{strange[0]}`, which a lattice would lose")
    return {name: keys[name] for name in ("gas", "chirality", "seed") if name in keys}


def run(
    scene: Scene, generations: int, stages: int | None = None, capacity: int | None = None
) -> Lattice:
    """The lattice of a scene after some generations.

    Parameters
    ----------
    scene : str or path
        As in `Lattice.load`.
    generations : int
        0 to 1,000,000.
    stages, capacity : int, optional
        The plan, by default as `plan` chooses.

    Returns
    -------
    Lattice

    Examples
    --------
    >>> fhpgas.run('gas = "hpp"\\ncells = ["01.."]', 1).states.tolist()
    [[0, 1]]
    """
    text = scene_bytes(scene)
    with naming(scene):
        return _run(text, generations, stages, capacity)


def _map_of(text: bytes, missing: Fault) -> dict[str, Any]:
    """The parts of the lattice of a map. Any other scene wants the program, which is missing."""
    try:
        keys = read(text)
    except Refused as refused:
        raise Fault(f"{refused} (`explain` says where)") from None
    if "cells" not in keys:
        raise missing
    pairs = np.frombuffer("".join(keys["cells"]).encode(), "<u2")
    states, solid = parts_of(CODES[pairs.reshape(len(keys["cells"]), -1)])
    kept = _kept(keys) | {"generation": keys.get("generation", 0)}
    return {"states": states, "solid": solid} | kept


def _run(
    text: bytes, generations: int, stages: int | None = None, capacity: int | None = None
) -> Lattice:
    words = planned(height_of(text), generations, stages, capacity)
    return Lattice(**cells_of(call(text, "run", *words)), **_kept(keys_of(text)))


def coarse(
    scene: Scene,
    generations: int,
    width: Side = 8,
    height: Side = 9,
    stages: int | None = None,
    capacity: int | None = None,
) -> Blocks:
    """The blocks of a scene after some generations.

    The lattice may be larger than the memory of Python: an area of 65536 x 65536 cells is a text of
    five lines.

    Parameters
    ----------
    scene, generations, stages, capacity
        As in `run`.
    width, height : int or None, optional
        The columns and rows of a block, at most 4096, None for all.

    Returns
    -------
    Blocks

    Examples
    --------
    >>> area = 'gas = "fhp1"\\nwidth = 64\\nheight = 36\\nrate = 1000\\n'
    >>> int(fhpgas.coarse(area, 3, 64, 36).particles[0, 0]) == 6 * 64 * 36
    True
    """
    text = scene_bytes(scene)
    with naming(scene):
        of, first = summary(text), keys_of(text).get("generation", 0)
        size = fields.Size(of.width, of.height)
        block = fields.block_of(size, width, height, limits.MOST_BLOCK)
        words = *planned(of.height, generations, stages, capacity), "--block-width", block.columns
        table = call(text, "coarse", *words, "--block-height", block.rows)
        return read_table(table, GASES[of.gas], block, size, first + generations)
