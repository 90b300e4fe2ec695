"""Random calls of include/fhpgas.h, lawful ones and others, for the tests of its libraries."""

import ctypes
import functools
import re

import needs
import numpy as np
from fhpgas import gas_table

HEADER = (needs.ROOT / "include/fhpgas.h").read_text()
NUMBERS = {"uint32_t": ctypes.c_uint32, "uint64_t": ctypes.c_uint64, "size_t": ctypes.c_size_t}
NONE = len(gas_table.GASES)  # the first number that no gas has
DIRECTIONS = *(len(gas.momenta) for gas in gas_table.GASES.values()), 1  # and of what is no gas
PLANES, SIDES = range(1, 9), range(1, 65537)
NAMES = "pack", "unpack", "advance", "sums"
BLOCKS = 1, 2, 5, 64, 100, 200, 5000, 2**32 - 1


@functools.cache
def prototypes():
    """By name what a call of the header returns, and the types and names of what it takes."""
    found = {}
    for result, name, words in re.findall(r"^(\w+) fhpgas_(\w+)\(([^)]*)\);", HEADER, re.M):
        pairs = [re.fullmatch(r"(.*?) ?(\w+)", " ".join(word.split())) for word in words.split(",")]
        found[name] = result, [pair.groups() for pair in pairs if pair[1]]
    return found


class Library:
    """A library that this process has loaded."""

    def __init__(self, path):
        self.library = ctypes.CDLL(str(path))

    def call(self, name, *words):
        """The number that a call returns, by the header. An array is one word, and comes after all numbers."""
        (result, taken), call = prototypes()[name], self.library[f"fhpgas_{name}"]
        call.restype = NUMBERS[result]
        call.argtypes = [NUMBERS.get(kind, ctypes.c_void_p) for kind, _ in taken]
        arrays = [word for word in words if isinstance(word, np.ndarray)]
        ends = sum(([array.ctypes.data, array.size] for array in arrays), [])
        return call(*words[: len(words) - len(arrays)], *ends)


class Calls:
    """Draws the numbers and arrays of calls by their names. `wrong` tells for each status whether
    they break its rule, which each number and length does with a chance `share`."""

    def __init__(self, library, seed, share, widths, heights, most):
        self.rng, self.share, self.sides = np.random.default_rng(seed), share, (widths, heights)
        self.library, self.most = library, most  # generations

    def draw(self, name):
        self.wrong = {}
        return getattr(self, name)()

    def number(self, status, lawful, *others):
        """A lawful number or another, which breaks the rule of a status."""
        is_wrong = self.rng.random() < self.share
        self.wrong[status] = self.wrong.get(status, False) or is_wrong
        return int(self.rng.choice(others if is_wrong else lawful))

    def size(self):
        drawn = [self.number("SIZE", side, 0, 65537, 2**32 - 1) for side in self.sides]
        self.width, self.height = (side if side in SIDES else 3 for side in drawn)
        return drawn

    def array(self, dtype, size):
        """An array of random bits, of this size or another."""
        size += self.number("LENGTH", [0], *([-1, 1] if size else [1]))
        return np.frombuffer(self.rng.bytes(size * np.dtype(dtype).itemsize), dtype).copy()

    def planes(self, number):
        return self.array(np.uint64, number * -(-self.width // 64) * self.height)

    def solid(self):
        """The words of solid cells: none, or a half to a sixteenth."""
        words = self.planes(1) * np.uint64(self.rng.random() < 0.7)
        for _ in range(self.rng.choice([0, 1, 3])):
            words &= np.frombuffer(self.rng.bytes(words.nbytes), np.uint64)
        return words

    def gas(self):
        gas = self.number("GAS", range(NONE), NONE, 2**32 - 1)
        return gas, DIRECTIONS[min(gas, NONE)]

    def pack(self):
        planes, sides = self.number("GAS", PLANES, 0, 9, 2**32 - 1), self.size()
        kept = min(planes, 8)
        cells = self.array(np.uint8, self.width * self.height) & np.uint8(2**kept - 1)
        if self.rng.random() < self.share and cells.size:
            cells[self.rng.integers(cells.size)] = 255
        self.wrong["BYTE"] = bool((cells.astype(int) >> kept).any())
        return planes, *sides, cells, self.planes(kept)

    def unpack(self):
        planes, sides = self.number("GAS", PLANES, 0, 9, 2**32 - 1), self.size()
        return (
            planes,
            *sides,
            self.planes(min(planes, 8)),
            self.array(np.uint8, self.width * self.height),
        )

    def advance(self):
        """The last array is the room to work in."""
        gas, directions = self.gas()
        chirality, sides = self.number("CHIRALITY", range(3), 3, 2**32 - 1), self.size()
        even = 2 * int(self.rng.integers(2**31))
        row = self.number("PLACE", [0, 2, even, 2**32 - 2], 1, even + 1, 2**32 - 1)
        left = self.number("GENERATIONS", range(self.most + 1), 0, 1)
        is_late = self.wrong["GENERATIONS"]
        firsts = 2**64 - 1 - left, 0, int(self.rng.integers(2**40))
        first = firsts[0 if is_late else self.rng.integers(3)]
        seed, solid = int(self.rng.integers(2**64, dtype=np.uint64)), self.solid()
        states = self.planes(directions)
        room = self.library.call("work_words", min(gas, NONE - 1), self.width)
        work = self.array(np.uint64, room)
        return gas, chirality, seed, first, left + is_late, *sides, row, solid, states, work

    def sums(self):
        (gas, directions), sides = self.gas(), self.size()
        block = [self.number("BLOCK", BLOCKS, 0) for _ in sides]
        pairs = zip((self.width, self.height), block)
        columns, rows = (-(-side // max(1, step)) for side, step in pairs)
        sums = self.array(np.int64, 4 * columns * rows)
        return gas, *sides, *block, self.solid(), self.planes(directions), sums
