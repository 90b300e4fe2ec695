"""Compares lattices, their runs, texts, files and refusals with the program itself, or with values made by hand."""

import copy
import dataclasses
import functools
import itertools
import math
import os
import pathlib
import pickle
import re
import subprocess
import sys
from unittest import mock

import pytest
from package_case import AREA, GASES, PROGRAM, TABLE, fault, same, wind

import fhpgas
import numpy as np
from fhpgas import Size, engine, program
from matplotlib.figure import Figure

CELLS = "generation 1 particles 2\n....02..\n........\n##10....\n"
# Calls that do not fit, and a part of the line that says why. `start` is the lattice of AREA, `large` has 256 x 96 cells, `solid` is
# a mask of 64 x 47.
FAULTS = """
Lattice([[0, 64]])                                  a state of fhp1 is an integer from 0 to 63, and row 0 column 1 has 64
Lattice([[0], [-1]])                                row 1 column 0 has -1
Lattice([[0.5]])                                    of the type float64
Lattice([1])                                        arrays [y, x] of one shape, 1 to 65536 each way, not (1,) and (1,)
Lattice([[1, 2]], [[0]])                            not (1, 2) and (1, 1)
Lattice([[1]], [[1]])                               row 0 column 0 is solid and contains a particle
Lattice([["1"]])                                    states: these are texts
Lattice([[1]], [[0.5]])                             solid cells are an array of truth values
Lattice(start)                                      a lattice does not change, so it needs no copy: see `replace`
gas(0.2, solid=255 * np.ones((4, 4), np.uint8))     compare an image with a number
forces(start)                                       a lattice of generation 0 has had no collision with a wall
film("a.gif", start)                                a film or a strip has several states
film("no/a.gif", [start])                           no/a.gif: No such file or directory
mean([start.blocks(), start.blocks()])              blocks are added
start.plot("speed", 1, block=8)                     a block is two integers, columns and rows, not 8
Lattice([[0]], gas="FHP-II")                        a gas is one of fhp1, hpp, fhp-rest, not 'FHP-II': fhp-rest is FHP-II
Lattice([[0]], gas="fhp 2")                         not 'fhp 2': fhp-rest is fhp 2
Lattice([[0]], gas="FHP-I")                         not 'FHP-I': fhp1 is FHP-I
Lattice([[0]], chirality="up")                      a chirality is one of seeded, left, right, not 'up'
Lattice([[0]], seed=-1)                             a seed is an integer from 0 to 9223372036854775807, not -1
start.replace(seed=1.0)                             not 1.0
start.run(np.arange(2))                             not array([0, 1])
start.run(-1)                                       the number of generations is an integer from 0 to 1000000, not -1
run(AREA, 1e3)                                      not 1000.0
start.run(1, workers=0)                             the number of workers is an integer from 1, not 0
run(AREA, 1, stages=65)                             the number of stages is an integer from 1 to 64, not 65
run(AREA, 1, capacity=1025)                         the capacity is an integer from 1 to 1024, not 1025
coarse(AREA, 1, 4097)                               the number of columns of a block is an integer from 1 to 4096, not 4097
start.blocks(0)                                     the number of columns of a block is an integer from 1, not 0
start.every(-1, 2)                                  a step is an integer from 1 to 1000000, not -1
start.save("/no/such/a.toml")                       No such file
vast.save("vast.toml")                              save them as .npz
next(vast.long_run(6, 2, "vast.toml"))              save them as .npz
next(start.long_run(10**12 + 1, 10**6, "a.npz"))    the last generation is an integer from 0 to 10000
start.save("a.nc")                                  a.nc: a lattice is saved as .toml or .npz
start.long_run(4, 2, "a.txt")                       a.txt: a lattice is saved as .toml or .npz
start.blocks().save("b.csv")                        b.csv: Blocks are saved as .npz
run(AREA + "#" * 2**26, 1)                          the scene has 67108943 bytes, and the program reads 67108864
run("no/such.toml", 1)                              no/such.toml: No such file
check(AREA.encode())                                not as bytes
Lattice.load(AREA + "colour = 1")                   scene: unknown key (`explain` says where)
with_seed(start.scene(), 1)                         leave `cells` as they are
with_seed(AREA + "particles = [[0, 0, 1]]", 1)      leave `particles` as they are
with_seed(AREA.replace("300", "0"), 1)              `rate` is 0
read_cells(CELLS, "fhp1", Size(3, 4))               the cells are 4 x 3 (columns x rows), and not 3 x 4
read_cells(CELLS, "hpp", Size(4, 3))                from 0 to 15
read_table(TABLE, "hpp", (2, 2), Size(6, 3))        no whole table of `coarse` with 3 columns and 2 rows of blocks
start.blocks() + start.blocks(9, 9)                 only blocks of one gas, one size and one lattice's size
replace(start.blocks(), size=Size(66, 10))          66 x 10 cells have 9 x 2 blocks of 8 x 9
start.blocks().smooth(-1)                           sigma is a number from 0
start.blocks().smooth().text()                      smoothed sums have fractions
start.reverse()                                     chirality "seeded" cannot be reversed
GASES["hpp"].collisions("seeded")                   left or right, not 'seeded'
equilibrium("fhp1", 0.2, 1.0)                       no fhp1 of filling 0.2 has the velocity 1, 0
equilibrium("fhp1", [0.2, 0.9], 0.3)                no fhp1 of filling 0.9 has the velocity 0.3, 0
equilibrium("hpp", 0.5, nan)                        the field `east` has a value that is not finite
equilibrium("fhp1", 1.2)  a filling is the chance per direction, 0 to 1, not 1.2 (particles per cell are a density)
gas(0.2)                                            the size is not known
gas(0.2, 0.1 * np.ones((47, 1)))                    the size is not known
gas(lambda X, Y: 0.2)                               the size is not known
gas(0.2, size=64)  a size is fhpgas.Size(columns, rows), or a lattice or an array [y, x] of this size, not 64
gas(0.2, size=solid.shape)                          of this size, not (47, 64)
positions((64, 47))                                 of this size, not (64, 47)
read_cells(CELLS, "fhp1", (4, 3))                   of this size, not (4, 3)
gas(0.2, size=Size(64.0, 64))                       the number of columns of a size is an integer from 1, not 64.0
gas(0.2, size=Size(70000, 1))                       1 to 65536 each way
gas(np.ones((3, 4)), size=Size(4, 4))               the field `filling` has the shape (3, 4), and the lattice 4 rows and 4 columns
gas(0.2, size=Size(9, 9), solid=solid)              the field `solid` has the shape (47, 64)
gas(np.ones((4, 5)), np.ones((2, 3)))               which do not fit together
gas("0.2", size=Size(4, 4))                         the field `filling`: these are texts
gas(0.2, None, size=Size(4, 4))                     the field `east` is numbers or a function of the place, not None
disc(Size(64, 24), 64, 0, 1)                        the column of a disc is an integer from 0 to 63, not 64
disc(Size(64, 24), 0, 0, nan)                       the radius of a disc is a number from 0 to inf, not nan
disc(Size(64, 24), 0, 0, "3")                       the radius of a disc is a number from 0 to inf, not '3'
disc(Size(64, 24), 0, 0, b"3")                      the radius of a disc is a number from 0 to inf, not b'3'
polygon(Size(9, 9), [("1", 2), (3, 4), (0, 5)])     corners: these are texts
polygon(Size(9, 9), [(1, 2), (3, 4)])               a polygon has three corners (column, row) or more
polygon(Size(9, 9), [1, 2, 3, 4, 5, 6])             a polygon has three corners (column, row) or more
polygon(Size(9, 9), [(0, 0), (1, inf), (1, 1)])     at most 1e+06 away, not [(0, 0), (1, inf), (1, 1)]
porous(Size(9, 9), 30, 1)                           the share of solid cells is a number from 0 to 1, not 30
porous(Size(9, 9), 0.3, 1, np.random.default_rng())  a seed is an integer
nozzle(Size(64, 24), 6, 65)                         the length of a nozzle is an integer from 1 to 64
bitmap(Size(64, 48), solid, 1e308)                  a number from 1e-09 to 65536, not 1e+308
bitmap(Size(64, 40), "no.png")                      no.png: No such file
bitmap(Size(64, 40), [1, 2, 3])                     not of the shape (3,)
bitmap(Size(64, 48), solid, 0)                      the width of a pixel is a number
bitmap(Size(64, 48), solid, "2")                    the width of a pixel is a number
mean_of_series(["1", "2"])                          values: these are texts
flux("hpp", ["1"] * 4)                              numbers by direction: these are texts
bitmap(Size(64, 48), 255 * solid.astype(np.uint8))  compare an image with a number, as in `image > 127`
bitmap(Size(64, 48), np.where(solid, 0.1, 1.0))     not float64: compare an image with a number
bitmap(Size(64, 48), np.ones((9, 9, 4)))            not of the shape (9, 9, 4)
next(start.driven(20))                              either by a force or towards a mean flow
next(start.driven(20, 7, force=1))                  20 generations are not a multiple of 7
next(start.driven(20, force=nan))                   a force is a number from -2 to 2, not nan
next(start.driven(20, force=2))                     particles to flip
gas(0, size=Size(4, 4)).driven(20, force=1)         no particle that could be flipped
start.driven(20, force=1, along="x")                a force acts along one of rows, directions, not 'x'
film("a.gif", [])                                   a state or more
strip([])                                           a state or more
film("a.gif", [start, large], "speed")              states of one size, and these are of 66 x 9 and of 256 x 96 cells
strip([large.blocks(), start.blocks()])             states of one size, and these are of 256 x 96 and of 66 x 9 cells
film("a.avi", [large])                              a film is written as
plot(AREA)                                          a Lattice or of Blocks
plot(large, "particles")                            no picture of 'particles'
film("a.gif", [large], fps=0)                       frames per second
film("a.gif", [large], fps="3")                     frames per second
"""

CHIRALITIES = "seeded", "left", "right"
SIZES = Size(64, 47), Size(65, 33), Size(1, 5), Size(7, 1)


def printed(lattice, words):
    """What the program prints for a scene that is written here by docs/FORMATS.md."""
    cells = np.where(lattice.solid, "##", np.char.mod("%02x", lattice.states))
    scene = f'version = 2\ngas = "{lattice.gas.name}"\nchirality = "{lattice.chirality}"\n'
    scene += f"seed = {lattice.seed}\ngeneration = {lattice.generation}\n"
    scene += f"""cells = [{', '.join(f'"{"".join(row)}"' for row in cells)}]\n"""
    return subprocess.check_output([PROGRAM, *words.split()], input=scene, text=True)


@pytest.fixture(scope="module")
def names():
    """What the calls of FAULTS name."""
    names = globals() | vars(fhpgas) | vars(math) | {"replace": dataclasses.replace}
    names |= {"gas": fhpgas.draw_gas, "mean": fhpgas.mean_and_error}
    names |= {"start": fhpgas.Lattice.load(AREA), "solid": wind((64, 47)).solid}
    names["vast"] = fhpgas.Lattice(np.zeros((8200, 4096), np.uint8))
    return names | {"large": fhpgas.draw_gas(0.2, size=Size(256, 96))}


@pytest.mark.parametrize("call, part", re.findall(r"^(\S.*?)\s{2,}(.+)$", FAULTS, re.M))
def test_what_does_not_fit_is_a_fault(names, call, part):
    fault(part, lambda: eval(call, names))


def test_a_lattice_does_not_change_and_is_equal_by_value():
    states = np.array([[0, 0, 2, 0], [0] * 4, [0, 16, 0, 0]])
    lattice, kept = fhpgas.Lattice(states, states < 0, seed=5, generation=7), states.tolist()
    states[:] = 9
    assert lattice.states.tolist() == kept
    assert (lattice.size, lattice.particles, lattice.fluid) == ((4, 3), 2, 12)
    assert (lattice.shape, np.shape(lattice)) == ((3, 4),) * 2
    words = [[0] * 3, [4, 0, 0], *[[0] * 3] * 2, [0, 0, 2], [0] * 3]
    assert lattice.planes[:, :, 0].T.tolist() == words
    if np.lib.NumpyVersion(np.__version__) >= "2.0.0":
        pytest.raises(ValueError, np.array, lattice, float, copy=False)
    pytest.raises(ValueError, lattice.__array__, float, copy=False)
    assert lattice.__array__(copy=False) is lattice.states
    assert repr(lattice) == "<Lattice fhp1 seeded 4 x 3, generation 7, 2 particles>"
    assert np.asarray(lattice) is lattice.states
    assert np.add(lattice, 1).tolist() == (np.array(kept) + 1).tolist()
    blocks = lattice.blocks(2, 2)
    for one, again in ((lattice, lattice.replace()), (blocks, lattice.blocks(2, 2))):
        for other in (again, pickle.loads(pickle.dumps(one)), copy.deepcopy(one)):
            names = ("states", "solid", "planes") if one is lattice else ("fluid", "px")
            arrays = [getattr(other, name) for name in names]
            assert not any(array.flags.writeable for array in arrays)
            assert (other, hash(other)) == (one, hash(one))
            pytest.raises(dataclasses.FrozenInstanceError, setattr, other, "generation", 8)
    changes = {"seed": 6, "generation": 8, "chirality": "left", "gas": "fhp-rest"}
    changes |= {"solid": np.arange(12).reshape(3, 4) == 5, "states": 0 * states}
    for name, value in changes.items():
        assert lattice.replace(**{name: value}) != lattice, name
    assert lattice.replace(seed=6).states is lattice.states  # nothing that is checked is copied
    assert lattice.replace(states=0 * states).solid is lattice.solid
    assert dataclasses.replace(blocks, generation=8) != blocks


@pytest.mark.parametrize("gas, chirality, size", itertools.product(GASES, CHIRALITIES, SIZES))
def test_runs_equal_the_program(tmp_path, gas, chirality, size):
    """Its bytes for a scene written by hand: also in parts, and from a file."""
    start = wind(size, gas, chirality)
    late = start.run(7)
    assert late.text() == printed(start, "run --generations 7")
    assert fhpgas.run(start.scene(), 7, stages=3, capacity=2) == late
    assert fhpgas.read_cells(late.text(), gas, size, chirality, 3) == late
    three = start.run(3)
    assert [*three.every(2, 2)] == [three, three.run(2), late]
    start.save(tmp_path / "start.toml")
    assert fhpgas.Lattice.load(tmp_path / "start.toml") == start
    assert fhpgas.Lattice.load(late.scene()) == late
    whole = (start.coarse(7, None, None), fhpgas.coarse(start.scene(), 7, None, None))
    assert whole == (late.blocks(None, None),) * 2


def test_printed_texts_are_read_whole_or_not_at_all():
    cells = fhpgas.read_cells(CELLS, "fhp1", Size(4, 3))
    assert cells.states.tolist() == [[0, 0, 2, 0], [0] * 4, [0, 16, 0, 0]]
    assert (cells.generation, np.argwhere(cells.solid).tolist()) == (1, [[2, 0]])
    wrong = [CELLS.replace("02", pair) for pair in ("0g", "0A", "80", "#.", "2", " 2", "03")]
    wrong += [CELLS + "........\n", CELLS.replace("........\n", ""), CELLS + "\n", TABLE]
    for text in (*(CELLS[:end] for end in range(len(CELLS))), *wrong):
        fault("cells", fhpgas.read_cells, text, "fhp1", Size(4, 3))
    changes = ("8", "x"), ("    1     0", "    2     0"), ("3          1", "3        1.0")
    wrong, known = [TABLE.replace(*pair) for pair in changes], ("hpp", (2, 2), Size(6, 2))
    why = "this is no whole table of `coarse` with 3 columns and 1 rows"
    for text in (*(TABLE[:end] for end in range(len(TABLE))), TABLE + "\n", *wrong, CELLS):
        fault(why, fhpgas.read_table, text, *known)


@pytest.mark.parametrize("read", [lambda scene: fhpgas.run(scene, 0), fhpgas.Lattice.load])
def test_a_key_that_only_a_later_program_reads_is_refused(read):
    printed = program.call(AREA.encode(), "run", "--generations", 0)
    with mock.patch.object(fhpgas.lattice, "call", return_value=printed):
        fault("the key `later`", read, AREA + "later = 1\n")


def test_maps_are_read_without_the_program_as_the_program_reads_them(tmp_path):
    start = wind((70, 40), "fhp-rest", "right").run(3)
    start.save(tmp_path / "a.toml")
    start.save(tmp_path / "a.npz")
    texts = 'gas = "hpp"\ncells = ["01##"]\n', "\ufeff" + 'seed=3\ngas="fhp1"\ncells=["..3f"]\n'
    scenes = tmp_path / "a.toml", tmp_path / "a.npz", *texts
    wanted = [fhpgas.Lattice.load(scene) for scene in scenes]
    none, wrong = fhpgas.Fault("no program"), texts[0].replace("##", "1f")
    with mock.patch.object(fhpgas.lattice, "program_path", side_effect=none):
        assert [fhpgas.Lattice.load(scene) for scene in scenes] == wanted
        fault("no program", fhpgas.Lattice.load, AREA)
        fault("scene: row 0 cell 1 is not a cell", fhpgas.Lattice.load, wrong)
    assert (wanted[0], wanted[1]) == (start, start)


def test_what_is_built_says_what_it_is():
    told = subprocess.check_output([PROGRAM, "--version"], text=True)
    text, found = re.search(r"\((.*)\)", told)[1], fhpgas.build()
    proved = "made by the kit, compare with RECORD of an archive"
    wanted = text if text.endswith("not proved") else proved
    assert found["program"] == wanted
    is_plain = b"fhpgas_not_proved" in pathlib.Path(engine.library()._name).read_bytes()
    assert found["engine"].endswith("not proved") == is_plain


def test_names_of_no_gas_here_have_no_hint():
    for other in "FHP-III", "lbm", "", 3, None:
        with pytest.raises(fhpgas.Fault, match="not [^:]+$"):
            fhpgas.gas_named(other)


def test_a_missing_library_is_a_fault_that_names_it():
    start = fhpgas.Lattice.load(AREA)
    names = "scipy", "scipy.ndimage", "xarray", "tqdm.auto"
    with mock.patch.dict(sys.modules, dict.fromkeys(names)):
        fault("lacks the package scipy: pip install scipy", start.blocks().smooth)
        fault("lacks the package xarray", start.to_xarray)
        with pytest.warns(UserWarning, match="tqdm is missing"):
            assert start.run(3, progress=True) == start.run(3)


def test_a_scene_is_passed_as_its_text_or_its_path(tmp_path):
    (tmp_path / "d=0.3.toml").write_text(AREA)
    start = fhpgas.Lattice.load(AREA)
    found = start.gas.name, start.chirality, start.seed, start.generation, start.solid.sum()
    assert found == ("fhp1", "seeded", 7, 0, 12)
    summary = fhpgas.Summary("fhp1", 66, 9, 12, start.particles)
    for scene in (AREA, tmp_path / "d=0.3.toml", str(tmp_path / "d=0.3.toml"), start.scene()):
        assert fhpgas.check(scene) == summary
        assert fhpgas.run(scene, 5) == start.run(5)
        assert fhpgas.coarse(scene, 5, 11, 4) == start.run(5).blocks(11, 4)
    text = 'version = 2\ngas = "hpp" # cells = ["##"]\ncells = [\n  "##01", # a ] mark\n'
    text += '  "0100",\n]\nchirality = "left"\nseed = 4\n'
    wanted = fhpgas.Lattice([[0, 1], [1, 0]], [[1, 0], [0, 0]], "hpp", "left", 4, 9)
    assert fhpgas.Lattice.load(text + "generation = 9") == wanted
    vast = 'version = 2\ngas = "fhp1"\nwidth = 65536\nheight = 1024\nrate = 1000\n'
    found = fhpgas.coarse(vast + "generation = 3\n", 1, 4096, 512)  # too long as a map
    assert (found.fluid.shape, found.generation) == ((2, 16), 4)
    assert {*found.particles.ravel().tolist()} == {6 * 4096 * 512}
    wanted = fhpgas.Lattice.load(AREA.replace("seed = 7", "seed = 8"))
    assert fhpgas.Lattice.load(fhpgas.with_seed(AREA, 8)) == wanted
    assert [*tmp_path.iterdir()] == [tmp_path / "d=0.3.toml"]


def test_frames_cost_as_many_generations_as_they_show():
    start, times = fhpgas.Lattice.load(AREA), [*range(0, 101, 5)]
    known = {"autospec": True, "side_effect": fhpgas.Lattice.run}
    with mock.patch.object(fhpgas.Lattice, "run", **known) as run:
        assert [each.generation for each in start.every(5, 20)] == times
        points = start.driven(100, 5, flow=0.1)
        assert [point.after.generation for point in points] == times
    assert [each.args[1] for each in run.call_args_list] == [5] * 40


def test_a_run_is_resumed_from_what_is_kept(tmp_path):
    start, kept = fhpgas.Lattice.load(AREA), tmp_path / "kept"
    later = start.run(3)
    assert start.resume(later.text()).run(4) == start.run(7)
    narrow = fhpgas.Lattice.load(AREA.replace("66", "64"))
    fault("66 x 9 (columns x rows), and not 64 x 9", narrow.resume, later.text())
    assert next(start.long_run(10, 4, kept)) == start.run(4)
    assert [*start.long_run(10, 4, kept)] == [start.run(8), start.run(10)]
    assert [*start.long_run(10, 4, kept)] == []
    assert fhpgas.Lattice.load(kept) == start.run(10)
    with np.load(kept) as found:
        assert found["generation"] == 10
    kept = tmp_path / "kept.toml"
    assert next(start.long_run(10, 4, kept)) == start.run(4)
    assert fhpgas.check(kept).particles == start.particles
    later.save(kept)
    for old, new, part in (
        ("66", "64", "size is 66 x 9, and not 64 x 9"),
        ("3, 4]", "3, 3]", "fluid is 582, and not 585"),
        ("300", "301", f"particles is {start.particles}, and not"),
        ("= 7", "= 8", "seed is 7, and not 8"),
        ("fhp1", "fhp-rest", "gas is fhp1"),
        ("seed", "chirality = 'left'\nseed", "chirality is seeded"),
        ("gas", "version = 2\ngeneration = 4\ngas", "of generation 3, and it is of 4, with"),
        ("gas", "version = 2\ngeneration = 3\ngas", "of generation 3, and it is of 3, with"),
    ):
        fault(part, fhpgas.Lattice.load(AREA.replace(old, new)).long_run, 10, 4, kept)
    empty = start.replace(states=0 * start.states)
    other = empty.replace(solid=np.roll(start.solid, 1, 0))
    fault("other cells are solid", other.resume, empty.run(1).text())
    is_early = AssertionError("it computes before it tries its file")
    with mock.patch.object(engine, "advanced", side_effect=is_early):
        fault("No such file", start.long_run, 10, 4, "/no/such/kept.toml")


def test_masked_values_are_hidden_or_refused():
    start = wind((64, 47))
    blocks, odd = start.blocks(), np.arange(64 * 47).reshape(47, 64) % 2 == 1
    image = blocks.plot(np.ma.masked_where(blocks.east > 0.1, blocks.east), Figure().subplots())
    assert np.ma.getmaskarray(image.get_array())[blocks.east > 0.1].all()
    gas, states = fhpgas.gas_named("fhp1"), np.ma.masked_where(odd, start.states)
    size, thin = Size(64, 47), np.ma.masked_where(odd, 0.2 + 0 * odd)
    walls, drawn = np.ma.masked_where(odd, odd), functools.partial(fhpgas.draw_gas, size=size)
    for function, *words in (
        (fhpgas.Lattice, states),
        (fhpgas.Lattice, [*states]),
        (fhpgas.Lattice, 0 * start.states, walls),
        (fhpgas.draw_gas, thin),
        (drawn, lambda X, Y: np.ma.masked_where(odd, 0 * X + 0 * Y), 0.0, 0.0),
        (fhpgas.bitmap, size, walls),
        (fhpgas.boltzmann.Flow, "fhp1", walls),
        (fhpgas.equilibrium, gas, thin),
        (fhpgas.theory.viscosity, gas, np.ma.masked_equal([0.2, 0.3], 0.3)),
        (fhpgas.flux, gas, np.ma.masked_equal(start.counts(), start.counts()[2])),
        (fhpgas.forces, start.run(1), walls),
        (fhpgas.mean_and_error, [np.ma.masked_equal([1.0, 2.0], 2.0), np.array([1.0, 3.0])]),
        (fhpgas.polygon, size, np.ma.masked_equal([(0, 0), (9, 0), (0, 9)], 9)),
    ):
        fault("a masked value is none", function, *words)


def test_a_file_is_saved_where_a_link_points_and_never_over_what_is_no_file(tmp_path):
    start, room = fhpgas.Lattice.load(AREA), tmp_path / "saved"
    (room / "there").mkdir(parents=True)
    target, link = room / "there/a.toml", room / "link.toml"
    link.symlink_to(target)
    start.save(link)
    target.chmod(0o640)
    start.run(1).save(link)
    assert link.is_symlink() and target.stat().st_mode & 0o777 == 0o640
    assert fhpgas.Lattice.load(target) == start.run(1)
    os.mkfifo(room / "fifo")
    for name in ("fifo", "there", "/dev/null"):
        kept = lambda path: start.long_run(2, 1, path)
        for call in (start.save, kept, start.blocks().save):
            fault(f"{name} is no plain file", call, room / name)
    lattices = [start.run(number) for number in range(8)]
    shared = room / "shared.toml"
    fhpgas.side_by_side(lambda lattice: [lattice.save(shared) for _ in range(20)], lattices)
    assert fhpgas.Lattice.load(shared) in lattices
    wanted = {"there", "a.toml", "link.toml", "fifo", "shared.toml"}
    assert {path.name for path in room.rglob("*")} == wanted
    with mock.patch.object(os, "replace", side_effect=KeyboardInterrupt):
        pytest.raises(KeyboardInterrupt, start.save, shared)
    (room / ".shared.toml.new").write_text("what a killed run left")
    with mock.patch.object(os, "fsync", side_effect=os.fsync) as synced:
        start.save(shared)
    assert synced.called
    assert {path.name for path in room.rglob("*")} == wanted
    assert fhpgas.Lattice.load(shared) == start


def test_a_refusal_names_its_file(tmp_path):
    (path := tmp_path / "wrong.toml").write_text("x\n")
    calls = fhpgas.check, fhpgas.Lattice.load, lambda path: fhpgas.with_seed(path, 1)
    late = lambda path: fhpgas.Lattice.load(AREA).long_run(2, 1, path)
    for call in *calls, lambda path: fhpgas.coarse(path, 1), late:
        fault(f"{path}: scene: not TOML", call, path)
    fhpgas.Lattice.load(AREA.replace("fhp1", "hpp")).save(path)
    fault(f"{path}: the cells are", fhpgas.Lattice.load(AREA).long_run, 2, 1, path)


@pytest.mark.parametrize("gas", GASES)
def test_sums_by_direction_are_counted(gas):
    lattice = wind((65, 33), gas).run(2)
    flags = lattice.states >> np.arange(lattice.gas.directions)[:, None, None] & 1
    rows = np.add.reduceat(flags, (0, 20), axis=1)
    counts = np.add.reduceat(rows, (0, 30, 60), axis=2)
    whole = flags.sum((1, 2))
    assert lattice.counts(30, 20).tolist() == counts.tolist()
    assert lattice.counts().tolist() == whole.tolist()
    same(lattice.counts(None, 20), counts.sum(2, keepdims=True))
    assert lattice.blocks(None, 9) == lattice.blocks(65, 9)
    same(lattice.momentum, whole @ lattice.gas.velocities)
    sums = lattice.blocks().px.sum(), lattice.blocks().py.sum()
    same(lattice.momentum, np.multiply(lattice.gas.units, sums), 9)
