"""Compares the engine in Python's process (python/fhpgas/engine.py with the libraries beside it) with the program, strips of a lattice
with the whole, and include/fhpgas.h with the binding and with the crate."""

import concurrent.futures
import functools
import itertools
import os
import pathlib
import platform
import re
import signal
import subprocess
import sys
from unittest import mock

import needs
import pytest
from package_case import PROGRAM, fault

import fhpgas
import numpy as np
from engine_calls import HEADER, NUMBERS, prototypes
from fhpgas import engine, planes
from fhpgas.planes import packed, unpacked

if engine.library() is None:
    pytest.skip("python/fhpgas has no library for this processor", allow_module_level=True)
GASES = [*fhpgas.GASES.values()]
CHIRALITIES = "seeded", "left", "right"
LATTICES = 2000
WIDE = (65536, 1), (1, 65536), (4097, 5), (5, 4097), (16384, 3), (1000, 64)
OTHERS = (needs.ROOT / "docs/LIBRARY.md").read_text().split("## From other languages")[1]
KINDS = {"u8": "uint8_t", "u32": "uint32_t", "u64": "uint64_t", "i64": "int64_t", "usize": "size_t"}
ARRAYS = {"uint8_t": "|u1", "uint64_t": "<u8", "int64_t": "<i8"}  # as numpy writes them


def drawn(rng, size, gas, chirality=None):
    """A lattice of random states and solid cells, with a seed and a generation that a scene may have."""
    shape = size[::-1]
    walls = rng.random(shape) < rng.choice([0, 0.02, 0.3, 1], p=[0.4, 0.3, 0.28, 0.02])
    directions = fhpgas.gas_named(gas).directions
    bits = rng.random((*shape, directions)) < rng.choice([0.02, 0.2, 0.5])
    states = np.where(walls, 0, bits @ (1 << np.arange(directions))).astype(np.uint8)
    seed = (0, 2**63 - 1, int(rng.integers(2**63, dtype=np.uint64)))[rng.integers(3)]
    first = (0, 2**32 - 5, 10**12, int(rng.integers(10**12)))[rng.integers(4)]
    chirality = chirality or str(rng.choice(CHIRALITIES))
    return fhpgas.Lattice(np.asfortranarray(states), walls, gas, chirality, seed, first)


def cases():
    """Lattices with 0 to 50 generations: sides from 1 to 300, and some that are wide or high."""
    rng = np.random.default_rng(1)
    for number in range(LATTICES):
        usual = tuple(rng.integers(1, 301, 2).tolist())
        size = usual if number % 50 else WIDE[number // 50 % len(WIDE)]
        yield drawn(rng, size, GASES[number % len(GASES)]), int(rng.integers(51))


@pytest.mark.sources
def test_it_has_the_exports_of_the_crate():
    """A slice of the crate is a pointer with a length."""
    sources = [path.read_text() for path in (needs.ROOT / "crates").glob("*/src/**/*.rt")]
    export, found = r'extern "C" fn fhpgas_(\w+)\(([^)]*)\) -> (\w+)', {}
    word = re.compile(r"(\w+): (?:&(mut )?\[(\w+)\]|(\w+))")
    for name, words, result in re.findall(export, "\n".join(sources)):
        taken = []
        for called, mutable, element, number in word.findall(words):
            pointer = f"{'' if mutable else 'const '}{KINDS.get(element)} *"
            array = [(pointer, called), ("size_t", f"{called}_length")]
            taken += [(KINDS[number], called)] if number else array
        found[name] = KINDS[result], taken
    assert prototypes() == found


def test_the_binding_has_its_calls_and_numbers():
    assert f"#define FHPGAS_INTERFACE {engine.INTERFACE}\n" in HEADER
    gases = HEADER.partition("/* The gases:")[2].partition("}")[0]
    assert gases.count(" = ") == len(GASES)
    for name, number in (engine.GASES | engine.CHIRALITIES).items():
        assert f"FHPGAS_{name.upper().replace('-', '_')} = {number}" in HEADER
    for name, (result, *taken) in engine.CALLS.items():
        wanted, pairs = prototypes()[name]
        assert result is NUMBERS[wanted], name
        for kind, (c, called) in zip(taken, pairs, strict=True):
            if array := re.fullmatch(r"(const )?(\w+) \*", c):
                is_written = "" if array[1] else "_W"
                name = f"ndpointer_{ARRAYS[array[2]]}_C{is_written}"
                assert kind.__name__ == name, called
            else:
                assert kind is NUMBERS[c], called


def test_it_is_cpp_too(tool):
    tool("cc")
    words = "cc -xc++ -std=c++11 -Wall -Wextra -Wpedantic -Werror -fsyntax-only -".split()
    subprocess.run(words, input=HEADER, text=True, check=True)


def test_the_libraries_have_functions_of_these_crates_and_one_of_the_kit():
    """So docs/NOTICES.md says from the maps that the linker wrote."""
    maps = [*(needs.ROOT / "crates").glob("*/out/libfhpgas-*.map")]
    own = {path.name for path in (needs.ROOT / "crates").glob("*")} | {"rand_chacha"}
    for path in maps:
        named = re.findall(r"\(\.text\.(\w+)", path.read_text())
        calls = {name for name in named if name.startswith("fhpgas_")}
        assert calls == {f"fhpgas_{name}" for name in prototypes()}
        assert {*named} - calls <= own


def test_cells_are_those_of_the_program():
    def is_so(case):
        lattice, generations = case
        return lattice.run(generations, 1) == fhpgas.run(lattice.scene(), generations, 2)

    assert fhpgas.side_by_side(is_so, cases()) == [True] * LATTICES


def test_strips_are_the_whole():
    """Of two rows or more, with margins of two rows or more, in parts of one generation or more, and cut or not by the length of
    a call, as sums are."""
    rng = np.random.default_rng(8)
    pools = mock.Mock(side_effect=concurrent.futures.ThreadPoolExecutor)
    for lattice, generations in itertools.islice(cases(), 300):
        alone, workers = lattice.run(generations, 1), int(rng.integers(2, 9))
        numbers = {"CUT": (1, 9999, 1 << 25), "MARGIN": (2, 4, 16, 32), "SHRINK": (2, 4, 8)}
        known = {name: int(rng.choice(some)) for name, some in numbers.items()}
        known = mock.patch.multiple(engine, LEAST=1, **known)
        with known, mock.patch("concurrent.futures.ThreadPoolExecutor", pools):
            assert lattice.run(generations, workers) == alone
            sums = engine.sums(lattice, 7, 5)
        np.testing.assert_array_equal(sums, engine.sums(lattice, 7, 5))
    assert {call.args[0] for call in pools.call_args_list} == {*range(2, 9)}


def test_sums_are_those_of_the_program():
    rng = np.random.default_rng(6)

    def is_so(case):
        (lattice, _), block = case
        table = fhpgas.coarse(lattice.scene(), 0, *block)
        wanted, found = (table.fluid, table.particles, table.px, table.py), lattice.blocks(*block)
        return found == table and np.array_equal(engine.sums(lattice, *block), wanted)

    blocks = rng.choice([1, 2, 3, 8, 9, 63, 64, 65, 400, 4096], (LATTICES, 2)).tolist()
    found = fhpgas.side_by_side(is_so, list(zip(cases(), blocks))[::4])
    assert found == [True] * (LATTICES // 4)


def test_runs_are_cut():
    """Into calls of one generation or more."""
    lattice, call = drawn(np.random.default_rng(4), (100, 37), "fhp-rest"), engine._call
    for cut, parts in ((1, 9), (100 * 37 * 2, 5), (100 * 10, 9)):
        watched = mock.Mock(side_effect=call)
        with mock.patch.multiple(engine, CUT=cut, _call=watched):
            lattice.run(9)
        assert [each.args[0] for each in watched.call_args_list].count("advance") == parts


def test_measures_need_the_words_alone():
    """Between the generations of a run no cell is packed or unpacked, and where particles leave walls is found once."""
    lattice = drawn(np.random.default_rng(4), (100, 37), "fhp-rest", "seeded")
    with mock.patch.multiple(planes, packed=mock.DEFAULT, unpacked=mock.DEFAULT) as forms:
        for name, form in forms.items():
            form.side_effect = {"packed": packed, "unpacked": unpacked}[name]
        with mock.patch.object(planes, "_links", side_effect=planes._links) as links:
            for later in lattice.every(1, 20):
                told = later.momentum, later.particles, later.blocks(), later.counts(8, 9)
                later.blocks(None, 1), fhpgas.forces(later) if later.generation else told
    assert (forms["unpacked"].call_count, links.call_count) == (0, 12)
    assert forms["packed"].call_count == 3  # states, solid cells, and the others


def test_an_interrupt_comes_between_calls():
    script = (
        "import fhpgas, signal; signal.signal(signal.SIGINT, signal.default_int_handler)\n"
        "lattice = fhpgas.draw_gas(0.2, size=fhpgas.Size(4096, 1024))\n"
        "print('begun', flush=True); lattice.run(10**6)"
    )
    words = [sys.executable, "-c", script]
    pipes = dict(stdout=subprocess.PIPE, stderr=subprocess.PIPE, text=True)
    environment = os.environ | {"PYTHONPATH": str(needs.ROOT / "python")}
    with subprocess.Popen(words, **pipes, env=environment) as process:
        assert process.stdout.readline() == "begun\n"
        process.send_signal(signal.SIGINT)
        assert "KeyboardInterrupt" in process.communicate()[1]


def block(language):
    """What docs/LIBRARY.md shows of another language."""
    return re.search(rf"^```{language}\n(.*?)^```", OTHERS, re.M | re.S)[1]


def test_in_c(tool, tmp_path):
    """In a folder as an archive has it, by a user with a prefix of his own."""
    tool("cc"), tool("pkg-config")
    lines = block("bash").replace("cc ", "cc -std=c99 -Wall -Wextra -Wpedantic -Werror ")
    for name in ("Makefile", "include", "examples", "python", "tools"):
        (tmp_path / name).symlink_to(needs.ROOT / name)
    (tmp_path / "fhpgas").symlink_to(PROGRAM)
    known = os.environ | {"HOME": f"{tmp_path}/home", "MAKEFLAGS": "--no-print-directory"}
    run = functools.partial(subprocess.check_output, cwd=tmp_path, text=True, env=known)
    printed = run(["bash", "-ec", f"{lines}./profile 1000"])
    own = tmp_path / "home/fhpgas"
    needed = run(["ldd", "profile"])
    assert f"libfhpgas.so.{engine.INTERFACE} => {own}/lib" in needed
    version = run([own / "bin/fhpgas", "--version"]).split()[1]
    known = run(["pkg-config", "--modversion", own / "lib/pkgconfig/fhpgas.pc"])
    assert known == f"{version}\n"
    run(["make", "-s", "uninstall", f"PREFIX={own}"])
    assert [path for path in own.rglob("*") if not path.is_dir()] == []
    y, x = np.mgrid[:40, :200]
    walls = (x // 10 == 5) & (y // 10 == 1)
    start = fhpgas.Lattice(~walls & ((y * 200 + x) * 7 % 5 < 2), walls, seed=1)
    table = fhpgas.coarse(start.scene(), 1000, 200, 1)
    found = np.array([line.split() for line in printed.splitlines()], int)
    assert found.tolist() == np.hstack([table.fluid, table.particles, table.px]).tolist()


def test_in_python():
    text = block("python")
    assert "python/fhpgas/libfhpgas-x86-64-v2.so" in text
    text = re.sub('python/[^"]*', engine.library()._name, text)  # the one that is here
    words = [sys.executable, "-c", text]
    assert subprocess.check_output(words, cwd=needs.ROOT) == b"0 8\n"


def test_in_javascript(tool):
    tool("node")
    if not (module := needs.ROOT / "page/engine.js").exists():
        pytest.skip("page/engine.js is missing")
    script = module.read_text() + block("js")
    assert subprocess.check_output(["node", "-"], input=script.encode()) == b"0 8\n"


def test_a_library_is_loaded_where_it_can_run_alone(request):
    request.addfinalizer(engine.library.cache_clear)
    loaded = {}
    flags = {"v3": engine.V3, "v2": engine.V3 - {"avx2"}, "": engine.V2 - {"popcnt"}}
    opened = mock.patch.object(engine, "_opened", lambda path: path.name)
    for name, known in flags.items():
        engine.library.cache_clear()
        flags_here = mock.patch.object(engine, "flags_of_processors", lambda: known)
        with opened, flags_here, mock.patch.object(pathlib.Path, "is_file", lambda path: True):
            loaded[name] = engine.library()
    own = f"libfhpgas-{platform.machine()}.so"
    names = {"v3": "libfhpgas-x86-64-v3.so", "v2": "libfhpgas-x86-64-v2.so", "": own}
    assert loaded == names
    engine.library.cache_clear()
    why = "left out: it has interface 3, and this package needs 0"
    with mock.patch.object(engine, "INTERFACE", 0), pytest.warns(UserWarning, match=why):
        assert engine.library() is None


def test_every_level_that_runs_here_has_equal_cells():
    lattice = drawn(np.random.default_rng(5), (70, 20), "fhp1", "left")
    late, flags = lattice.run(50), engine.flags_of_processors()
    for level, needed in engine.LEVELS.items():
        path = pathlib.Path(engine.__file__).with_name(f"libfhpgas-{level}.so")
        opened = mock.patch.object(engine, "library", lambda: engine._opened(path))
        if needed <= flags and path.exists():
            with opened:
                assert lattice.run(50) == late


def test_without_a_library_one_fault_says_so():
    """And what a lattice has is the same."""
    lattice = drawn(np.random.default_rng(5), (70, 20), "fhp-rest")
    of_blocks = lambda block: [lattice.blocks(*block), lattice.counts(*block)]
    read = lambda: [lattice.momentum.round(9).tolist(), *of_blocks((7, 5)), *of_blocks((8, 9))]
    known = read()
    with mock.patch.object(engine, "library", lambda: None):
        for found, wanted in zip(read(), known, strict=True):
            np.testing.assert_array_equal(found, wanted)
        for call in lattice.run, lattice.coarse:
            why = "no engine for Linux on x86_64, so it runs no lattice"
            fault(why, call, 1)
