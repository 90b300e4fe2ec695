"""Compares two libraries of include/fhpgas.h call by call: random lawful and refused calls must return the same status and leave the same
memory. A call returns the first status, in the order in which the header names what it refuses with, whose rule is broken, and leaves all
arrays as they were. The libraries are the plain one that looks at each index and the proved one that make left beside the package, the
page's module and the proved one, or with `--libraries PLAIN PROVED` two others. For what this process cannot load PLAIN is a command that
calls it (calls.c, tests/page/calls.mjs)."""

import itertools
import pathlib
import re
import shlex
import struct
import subprocess

import engine_calls
import needs
import pytest

import numpy as np

EDGES = [1, 63, 64, 65, 127, 128, 129, 255, 256, 257, 4096]
WIDTHS = [*range(1, 301), *EDGES * 27]
ROUNDS = 1500
CALLER = shlex.join(["node", f"{needs.ROOT}/tests/page/calls.mjs"])
LIBRARIES = "out/checked/libfhpgas.so", "python/fhpgas/libfhpgas-x86-64-v2.so"
STATUSES = dict(re.findall(r"FHPGAS_(\w+) = (\d)", engine_calls.HEADER))
GASES, SIDES = (*range(engine_calls.NONE + 1), 2**32 - 1), (0, *EDGES, 65536, 65537, 2**32 - 1)
SIZES = {  # what the calls that return sizes are given
    "interface": [()],
    "directions": [(gas,) for gas in GASES],
    "words": itertools.product((*range(10), 2**32 - 1), SIDES, SIDES),
    "work_words": itertools.product(GASES, SIDES),
}


class Far:
    """A library that another process has loaded."""

    def __init__(self, command):
        pipes = {"stdin": subprocess.PIPE, "stdout": subprocess.PIPE}
        self.process = subprocess.Popen(shlex.split(command), **pipes)

    def call(self, name, *words):
        """What a call returns, as engine_calls.Library.call."""
        arrays = [word for word in words if isinstance(word, np.ndarray)]
        numbers = words[: len(words) - len(arrays)]
        ends = [number for array in arrays for number in (array.size, array.nbytes)]
        head = [*numbers, *[0] * (8 - len(numbers)), *ends, *[0] * (6 - len(ends))]
        self.process.stdin.write(struct.pack("<16s14Q", name.encode(), *head))
        self.process.stdin.write(b"".join(array.tobytes() for array in arrays))
        self.process.stdin.flush()
        (returned,) = struct.unpack("<Q", self.process.stdout.read(8))
        for array in arrays:
            array[...] = np.frombuffer(self.process.stdout.read(array.nbytes), array.dtype)
        return returned


def arrays_of(name, words):
    """Copies of the arrays of a call. The room in which `advance` works, its last one, means nothing."""
    arrays = [word.tobytes() for word in words if isinstance(word, np.ndarray)]
    return arrays[:-1] if name == "advance" else arrays


def ended(library, name, words):
    """What a call returns, and its arrays as it leaves them."""
    words = [word.copy() if isinstance(word, np.ndarray) else word for word in words]
    return library.call(name, *words), arrays_of(name, words)


def refusals(name):
    """The statuses with which a call refuses, in the order of the header."""
    text = engine_calls.HEADER.partition(f"uint32_t fhpgas_{name}(")[0]
    return re.findall(r"Refuses with ([A-Z, ]+)\.", text)[-1].split(", ")


def compare(names):
    """Compares the calls of two libraries, all of whose statuses must be seen."""
    libraries = [(engine_calls.Library if it.endswith(".so") else Far)(it) for it in names]
    calls = engine_calls.Calls(libraries[0], 20, 0.1, WIDTHS, range(1, 41), 12)
    orders, seen = {name: refusals(name) for name in engine_calls.NAMES}, set()
    drawn = ((name, calls.draw(name)) for _ in range(ROUNDS) for name in orders)
    sizes = ((name, words) for name, known in SIZES.items() for words in known)
    for name, words in itertools.chain(sizes, drawn):
        (status, left), (other, right) = (ended(library, name, words) for library in libraries)
        is_so = status == other and left == right
        if name in orders:
            wanted = next(filter(calls.wrong.get, orders[name]), "DONE")
            is_so &= int(STATUSES[wanted]) == status
            is_so &= wanted == "DONE" or left == arrays_of(name, words)
            seen.add((name, wanted))
        told = [word.size if isinstance(word, np.ndarray) else word for word in words]
        assert is_so, f"{name} {told}: {status} and {other}"
    assert seen == {(name, it) for name, order in orders.items() for it in ("DONE", *order)}


def test_libraries_have_equal_calls(request):
    names = request.config.getoption("libraries") or [str(needs.ROOT / it) for it in LIBRARIES]
    here = [it for it in names if not it.endswith(".so") or pathlib.Path(it).exists()]
    compare((here * 2)[:2]) if here else None
    if here != names:
        pytest.skip("a library is missing, which make and plain/build.sh build")


def test_modules_have_equal_calls(tool):
    tool("node")
    if not (needs.ROOT / "page/engine.js").exists():
        pytest.skip("page/engine.js is missing, which make builds")
    compare([f"{CALLER} {name}" for name in ("page", "engine")])
