"""The engine in this process: a library built from the crates of the program, proved if the kit
built it, which ctypes calls.

A run goes in strips of whole rows, one per thread. A particle moves at most one row per
generation, so a strip with a margin of k rows is right after k generations. Then the strips
exchange their margins, and the result is the whole lattice, bit for bit: of a part away from its
cuts that is proved (docs/PROVED.md), of the strips it is tested.

A call works on arrays that it makes itself, so they are contiguous, do not overlap, and no other
thread has them. It lets go of Python's lock while the library computes, in parts of a tenth of a
second at most, so an interrupt comes between two of them. One generation is never cut."""
from __future__ import annotations

import collections
import concurrent.futures
import contextlib
import ctypes
import functools
import itertools
import pathlib
import platform
import sys
import warnings
from typing import TYPE_CHECKING, Any

import numpy as np
from numpy.ctypeslib import ndpointer

from . import gas_table
from .arrays import Ints, Words
from .beside import cores_of_call
from .fault import Fault, integer
from .fields import Size, number_of
from .groups import group
from .program import GET, SYSTEM
from .progress import counted

if TYPE_CHECKING:
    from .lattice import Lattice

# Of include/fhpgas.h: the number of the interface, the numbers of gases and chiralities, what a
# status says, and what the calls return and take. An array is followed by its length.
INTERFACE = 3
GASES = {name: number for number, name in enumerate(gas_table.GASES)}
CHIRALITIES = {name: number for number, name in enumerate(gas_table.CHIRALITIES)}
REFUSALS = {4: "a part begins at an even row", 5: "the last generation is not below 2^64"}
U32, U64, SIZE = ctypes.c_uint32, ctypes.c_uint64, ctypes.c_size_t
WORDS = ndpointer(np.uint64, flags="C"), SIZE
NEW_WORDS, NEW_SUMS = ((ndpointer(kind, flags=("C", "W")), SIZE) for kind in (np.uint64, np.int64))
CALLS: dict[str, tuple[Any, ...]] = {
    "interface": (U32,),
    "work_words": (SIZE, U32, U32),
    "advance": (U32, U32, U32, *[U64] * 3, *[U32] * 3, *WORDS, *NEW_WORDS, *NEW_WORDS),
    "sums": (U32, U32, U32, U32, U32, U32, *WORDS, *WORDS, *NEW_SUMS),
}
# How the names of libraries end, the best first, with the flags of Linux for what a level of x86-64
# needs. One for the processor alone is built by plain Rust.
V2 = {"cx16", "lahf_lm", "pni", "popcnt", "sse4_1", "sse4_2", "ssse3"}
V3 = V2 | {"abm", "avx", "avx2", "bmi1", "bmi2", "f16c", "fma", "movbe", "xsave"}
LEVELS = {"x86-64-v3": V3, "x86-64-v2": V2, platform.machine(): set[str]()}
CUT = 1 << 25  # cells, or updates of cells, of one call
MARGIN = 32  # rows, and generations from one exchange to the next
SHRINK = 8  # generations after which margins shrink, an even number
LEAST = 1 << 23  # updates of cells for which a thread is worth its start


def flags_of_processors() -> set[str]:
    """The flags that all processors of this machine have, as Linux names them. Elsewhere there
    are none."""
    try:
        lines = pathlib.Path("/proc/cpuinfo").read_text().splitlines()
    except OSError:
        return set()
    flags = [{*line.partition(":")[2].split()} for line in lines if line.startswith("flags")]
    return set.intersection(*flags) if flags else set()


@functools.cache
def library() -> ctypes.CDLL | None:
    """The library for this machine, for the best level of x86-64 that it has, or None if there is
    none beside this file. One that cannot be loaded, or has another interface, is left out with a
    warning."""
    flags = flags_of_processors() if sys.platform == "linux" else set()
    for name, needed in LEVELS.items():
        path = pathlib.Path(__file__).with_name(f"libfhpgas-{name}.so")
        if needed <= flags and path.is_file():
            try:
                return _opened(path)
            except (OSError, AttributeError) as fault:
                warnings.warn(f"{path} is left out: {fault}", stacklevel=2)
    return None


def _opened(path: pathlib.Path) -> ctypes.CDLL:
    found = ctypes.CDLL(str(path))
    for name, (result, *arguments) in CALLS.items():
        call = getattr(found, f"fhpgas_{name}")
        call.restype, call.argtypes = result, arguments
    if (number := found.fhpgas_interface()) != INTERFACE:
        raise OSError(f"it has interface {number}, and this package needs {INTERFACE}")
    return found


def advanced(
    lattice: Lattice,
    generations: int,
    workers: int | None = None,
    progress: bool = False,
    first_row: int = 0,
) -> Words:
    """The planes of a lattice after some generations, by at most so many threads. It may be a part
    of a whole, whole rows from an even one on, whose random bits it draws. A part has walls as any
    lattice. Its rows with at least `generations` rows between them and each cut are the whole's."""
    (columns, rows), gas = lattice.size, GASES[lattice.gas.name]
    most = cores_of_call() if workers is None else integer("the number of workers", workers, 1)
    number = max(1, min(most, rows // (2 * MARGIN), rows * columns * generations // LEAST))
    step = max(1, CUT // (columns * -(-rows // number)))
    step, few = (step, step) if number == 1 else (min(step, MARGIN), SHRINK)
    rules, solid = (gas, CHIRALITIES[lattice.chirality], lattice.seed), lattice.walls.planes
    source, states = lattice.planes.copy(), np.empty_like(lattice.planes)

    def advance(strip: tuple[int, int], done: int) -> None:
        """Advances a strip to the next exchange, with the margins that it still needs."""
        (top, end), last, low, part = strip, min(done + step, generations), 0, source
        work = np.empty(_call("work_words", gas, columns), np.uint64)
        for begun in range(done, last, few):
            margin = last - begun + (last - begun) % 2
            first, past = max(0, top - margin), min(rows, end + margin)
            part, low = part[first - low : past - low], first
            part = part.copy() if begun == done else part
            span = lattice.generation + begun, min(few, last - begun)
            place = columns, past - first, first_row + first
            _done("advance", *rules, *span, *place, solid[first:past], part, work)
        states[top:end] = part[top - low : end - low]

    tops = [rows * k // number // 2 * 2 for k in range(number)] + [rows]
    strips, starts = [*itertools.pairwise(tops)], range(0, generations, step)
    with contextlib.ExitStack() as ends:
        each: Any = map
        if number > 1:
            each = ends.enter_context(concurrent.futures.ThreadPoolExecutor(number)).map
        for done in counted(starts, len(starts), "part", progress):
            group.get().go_on()
            collections.deque(each(functools.partial(advance, done=done), strips), 0)
            source, states = states, source
    source[..., -1] &= np.uint64((1 << (columns - 1) % 64 + 1) - 1)  # no cells are past the width
    return source


def sums(lattice: Lattice, width: int, height: int) -> Ints:
    """The sums [k, row, column] over blocks of `width` x `height` cells of a lattice: fluid cells,
    particles, and momenta eastwards and northwards."""
    (columns, rows), gas = lattice.size, GASES[lattice.gas.name]
    width, height = min(width, columns), min(height, rows)
    found = np.empty((*number_of(lattice.size, Size(width, height)).shape, 4), np.int64)
    many = max(1, CUT // (columns * height))
    for row in range(0, len(found), many):
        part = slice(row * height, min((row + many) * height, rows))
        size, cells = (columns, part.stop - part.start, width, height), lattice.planes[part]
        _done("sums", gas, *size, lattice.walls.planes[part], cells, found[row : row + many])
    return np.moveaxis(found, -1, 0)


def _call(name: str, *given: Any) -> int:
    """What a call of the library returns. An array is passed with its length."""
    if (found := library()) is None:
        raise Fault(f"this package has no engine for {SYSTEM}, so it runs no lattice: {GET}")
    pairs = ((word, word.size) if isinstance(word, np.ndarray) else (word,) for word in given)
    return int(getattr(found, f"fhpgas_{name}")(*itertools.chain.from_iterable(pairs)))


def _done(name: str, *given: Any) -> None:
    """Makes a call that returns a status. A refusal raises a Fault."""
    if status := _call(name, *given):
        raise Fault(REFUSALS.get(status, f"the engine refuses the call {name} with {status}"))
