"""Compares blocks, their fields, smoothing, means and other forms with values made by hand, or with exact laws."""

import dataclasses
import itertools
import math
import sys

import needs
import pytest
from package_case import ROOT3, TABLE, fault, same, wind

needs.libraries("xarray", "netCDF4", "zarr")
import fhpgas
import numpy as np
import xarray
from fhpgas import GASES, Size
from matplotlib.figure import Figure


def test_blocks_have_the_fields_of_their_sums():
    """Eight particles in three cells, an empty block and a solid one."""
    nan, u = math.nan, math.sqrt(12) / 16
    for gas, east, north, filling, pressure in (
        ("fhp1", 3 / 16, ROOT3 / 16, 4 / 9, 4 / 3 * (1 - 0.1 * u**2)),
        ("hpp", 3 / 8, 1 / 8, 2 / 3, 4 / 3),
        ("fhp-rest", 3 / 16, ROOT3 / 16, 8 / 21, 8 / 7 * (1 - 5 / 6 * 35 / 156 * u**2)),
    ):
        blocks, late = (fhpgas.read_table(TABLE, gas, (2, 2), Size(6, 2), t) for t in (0, 5))
        for name, *wanted in (
            ("fluid", 3, 4, 0),
            ("particles", 8, 0, 0),
            ("px", 3, 0, 0),
            ("py", 1, 0, 0),
            ("density", 8 / 3, 0, nan),
            ("filling", filling, 0, nan),
            ("pressure", pressure, 0, nan),
            ("east", east, nan, nan),
            ("north", north, nan, nan),
            ("speed", math.hypot(east, north), nan, nan),
        ):
            np.testing.assert_allclose(getattr(blocks, name), [wanted], 0, 1e-12, err_msg=name)
        same(blocks.velocity, [[[east, nan, nan]], [[north, nan, nan]]])
        assert repr(blocks) == f"<Blocks 3 x 1 of 2 x 2 cells of {gas}, generation 0>"
        assert (blocks + blocks).particles.tolist() == [[16, 0, 0]]
        assert sum([blocks] * 3).px.tolist() == [[9, 0, 0]]
        assert blocks.text() == TABLE
    assert ((blocks + late).generation, (late + blocks).generation) == (5, 0)
    full = fhpgas.draw_gas(1, size=Size(4, 4)).blocks(2, 2)
    wanted = np.broadcast_to([[[6]], [[3]], [[0]]], (3, 2, 2))
    same((full.density, full.pressure, full.speed), wanted)


def test_a_sum_over_members_shows_what_one_shows():
    """As many blocks are hidden, because sums know how many lattices they are of."""
    start = wind((64, 47))
    one, many = start.blocks(5, 4), sum([start.blocks(5, 4)] * 50)
    assert (one.members, many.members, (many + one).members) == (1, 50, 51)
    assert repr(many)[-12:] == " 50 members>"
    same(many.cells, 50 * one.cells)
    same(one.cells.sum(), 64 * 47)
    shown = [blocks.plot("density", Figure().subplots()).get_array() for blocks in (one, many)]
    hidden = [*map(np.ma.getmaskarray, shown)]
    assert hidden[0].tolist() == hidden[1].tolist()
    assert hidden[0].tolist() == (2 * one.fluid < one.cells).tolist()
    assert hidden[0].any()


def test_tables_that_no_gas_can_have_are_refused():
    """A block of 2 x 2 cells of fhp1 has at most 4 fluid cells, 6 particles per cell, and momenta of 4 eastwards and 2 northwards per
    cell, of 2 and 1 per particle. In hpp these are 4 particles, and 1 and 1."""
    line = "    0     0 %8d %9d %10d %10d\n    1     0        0         0          0          0\n"

    def read(gas, *sums):
        text = TABLE.split("\n")[0] + "\n" + line % sums
        return fhpgas.read_table(text, gas, (2, 2), Size(4, 2))

    for gas, largest, small in (
        ("fhp1", (4, 24, 16, -8), (4, 3, -6, 3)),
        ("hpp", (4, 16, 4, 4), (4, 3, 3, -3)),
    ):
        for sums in (largest, small):
            assert read(gas, *sums).px[0, 0] == sums[2]
            assert read(gas, *sums).most()["fluid"].tolist() == [[4, 4]]
            for k in range(4) if sums is largest else (2, 3):
                more = [n + (n > 0) - (n < 0) if i == k else n for i, n in enumerate(sums)]
                name = ("fluid", "particles", "px", "py")[k]
                fault(f"column 0 row 0 has {name} {more[k]}", read, gas, *more)
    table, why = wind((31, 16)).blocks(8, 8).text(), "of another gas, size or block"
    fault(why, fhpgas.read_table, table, "fhp1", (8, 8), Size(31, 15))


def test_sums_are_integers_unless_they_have_fractions():
    for gas, kind in ("fhp1", np.float64), ("hpp", np.int64):
        lattice = fhpgas.draw_gas(0.3, size=Size(16, 18), gas=gas, seed=2).run(1)
        blocks = lattice.blocks(3, 9)
        few = dataclasses.replace(blocks, px=blocks.px.astype(np.int16))
        for found, wanted in (blocks, np.int64), (few, np.int64), (blocks.smooth(), np.float64):
            sums = found.fluid, found.particles, found.px, found.py
            assert {each.dtype for each in sums} == {np.dtype(wanted)}
        moved = [*fhpgas.forces(lattice).values(), fhpgas.flux(gas, lattice.counts())]
        moved += [lattice.momentum, lattice.gas.velocities]
        assert {each.dtype for each in moved} == {np.dtype(kind)}


def test_blocks_lie_where_their_cells_are():
    X, Y = fhpgas.positions(Size(5, 5))
    same((X[0], X[1] - 0.5, 2 * Y[::-1, 0] / ROOT3 - 0.5), [range(5)] * 3)
    same(fhpgas.positions(Size(3, 9), "hpp", slice(2, 4))[0], [[0, 1, 2]] * 2)
    blocks = fhpgas.draw_gas(0.2, size=Size(5, 5)).blocks(2, 3)
    (left, top), (x, y) = blocks.edges, blocks.positions
    same([*left, *x], [-0.25, 1.75, 3.75, 4.75, 0.75, 2.75, 4.25])
    same(2 * np.array([*top, *y]) / ROOT3, [5, 2, 0, 3.5, 1])
    X, Y = fhpgas.positions(Size(64, 48))
    x, y = fhpgas.draw_gas(0, size=Size(64, 48)).blocks(8, 6).positions
    same((x, y), (X.reshape(8, 6, 8, 8).mean((0, 1, 3)), Y.reshape(8, 6).mean(1)))


def test_vorticity_is_that_of_a_rotation():
    """u = -w y, v = w x has the vorticity 2 w, also in the last rows, which are smaller, and beside a solid block. u = y^2 has -2 y."""

    def of(east, north, fluid=1):
        fluid = np.full((6, 5), 72) * fluid
        sums = fluid, 4.0 * fluid, 8.0 * fluid * east, 8 / ROOT3 * fluid * north
        return fhpgas.Blocks(*sums, GASES["fhp1"], (8, 9), Size(40, 49))

    holed = np.ones((6, 5), int)
    holed[2, 2] = 0
    x, y = of(0, 0).positions
    y = y[:, None]
    for fluid in (1 + 0 * holed, holed):
        found = of(-0.01 * y, 0.01 * x, fluid).vorticity[:, 1:4]
        same(found, np.where(fluid, 0.02, math.nan)[:, 1:4])
    same(of(y**2, 0 * x).vorticity[1:5], -2 * y[1:5] * np.ones(5))
    north = np.cos(2 * math.pi * x / 40)
    same(of(0 * y, north).vorticity, [(np.roll(north, -1) - np.roll(north, 1)) / 16] * 6)
    alone = of(-0.01 * y, 0.01 * x, np.eye(6, 5, dtype=int))
    same(np.diag(alone.vorticity), [0] * 5)  # no neighbour is known


def test_smoothing_spreads_sums_by_a_gaussian_past_the_end():
    sums, weights = np.zeros((1, 16), int), np.exp(-np.arange(-4, 5) ** 2 / 2)
    sums[0, 0] = 1000
    sums, gas = (np.full((1, 16), 9), sums, 2 * sums // 5, 0 * sums), GASES["hpp"]
    blocks = fhpgas.Blocks(*sums, gas, (3, 3), Size(48, 3))
    wanted = np.roll(np.pad(1000 * weights / weights.sum(), (0, 7)), -4)
    same(blocks.smooth(1).particles, [wanted], 9)
    tall = [np.repeat(each, 9, 0) for each in sums]
    tall = fhpgas.Blocks(*tall, gas, (3, 3), Size(48, 27)).smooth(1)
    same(tall.east[4, [0, 1, 4, -4]], [0.4] * 4)
    # the last row of blocks has 5 rows of cells
    uneven = wind((70, 50), solid=np.zeros((50, 70), bool)).blocks(7, 9)
    same(uneven.smooth(2).particles.sum(), uneven.particles.sum(), 6)
    holed = dataclasses.replace(blocks, fluid=blocks.fluid * (np.arange(16) != 1))
    assert np.isnan(holed.smooth(1).density[0, 1])


def test_smoothing_keeps_a_shear_to_the_wall():
    """u = a y, which is zero at the wall, stays so, beside an obstacle too, because a
    Gaussian keeps what is linear. The density stays 4."""

    def of(east, fluid):
        x, y = fhpgas.draw_gas(0, size=Size(40, 360), gas="hpp").blocks(8, 9).positions
        east, fluid = east(y[:, None]) + 0 * x, np.full((40, 5), 72) * fluid
        sums = fluid, 4 * fluid, 4.0 * fluid * east, 0 * fluid
        return east, fhpgas.Blocks(*sums, GASES["hpp"], (8, 9), Size(40, 360))

    whole = np.ones((40, 5), int)
    upper = whole * (np.arange(40) > 14)[:, None]
    parts = (24, 40, 0, whole), (15, 24, 225, upper)
    for sigma, (first, last, surface, fluid) in itertools.product((0.7, 1, 3), parts):
        east, blocks = of(lambda y: 0.001 * (y - surface), fluid)
        smooth, rows = blocks.smooth(sigma), slice(first, last)
        same(smooth.east[rows], east[rows])
        same(smooth.density, blocks.density)
        same(smooth.vorticity[first + 1 : last], [[-0.001] * 5] * (last - first - 1))


def test_values_come_back_from_other_forms(tmp_path):
    """From netCDF, zarr and .npz, with gas, sizes and generation, which a table lacks."""
    start = wind((64, 47), "fhp-rest", "left").replace(generation=10**11, seed=2**62 + 1)
    summed = start.blocks(7, 5) + start.blocks(7, 5)
    for value in (start, summed, summed.smooth(1)):
        kind, path = type(value), tmp_path / "kept.nc"
        dataset = value.to_xarray()
        for name in (None, "scipy"):
            dataset.to_netcdf(tmp_path / f"{name}.nc", engine=name)
            with xarray.open_dataset(tmp_path / f"{name}.nc") as back:
                assert kind.from_xarray(back) == value
        dataset.to_netcdf(path)
        assert kind.from_xarray(dataset.transpose("x", "y")) == value
        part = "y" if kind is fhpgas.Lattice else "x"
        fault("not where these cells are", kind.from_xarray, dataset.sortby("y"))
        fault("this dataset has", kind.from_xarray, dataset.rename({part: "z"}))
        dataset.to_zarr(tmp_path / "kept.zarr", mode="w")
        for back in (xarray.open_dataset(path), xarray.open_zarr(tmp_path / "kept.zarr")):
            assert kind.from_xarray(back) == value
            back.close()
        value.save(tmp_path / "kept.npz")
        assert kind.load(tmp_path / "kept.npz") == value
    with np.load(tmp_path / "kept.npz") as found:  # by numpy alone
        assert (str(found["gas"]), found["size"].tolist()) == ("fhp-rest", [64, 47])
    dataset, (x, y) = summed.to_xarray(), summed.positions
    same(dataset.density.sel(x=x[3], y=y[2]), summed.density[2, 3])
    assert dataset.east.attrs["units"] == "cell widths per generation"
    X, Y = fhpgas.positions(start)
    same(start.to_xarray().X, X)
    same(start.to_xarray().y, Y[:, 0])
    start.save(tmp_path / "lattice.npz")
    fault("kept.npz", fhpgas.Lattice.load, tmp_path / "kept.npz")
    fault("is no Blocks: it lacks", fhpgas.Blocks.load, tmp_path / "lattice.npz")
    fault("no.npz", fhpgas.Lattice.load, tmp_path / "no.npz")
    whole, cut = (tmp_path / "lattice.npz").read_bytes(), tmp_path / "cut.npz"
    for place in range(0, len(whole), 7):
        flipped = whole[:place] + bytes([whole[place] ^ 64]) + whole[place + 1 :]
        for part in whole[:place], flipped:
            cut.write_bytes(part)
            try:
                assert fhpgas.Lattice.load(cut) == start  # a date may be any
            except fhpgas.Fault as refusal:
                assert "cut.npz: " in str(refusal)
    many = xarray.concat([each.blocks().to_xarray() for each in start.every(10, 3)], "t")
    assert (many.generation - 10**11).values.tolist() == [0, 10, 20, 30]
    assert fhpgas.Blocks.from_xarray(many.isel(t=2)) == start.run(20).blocks()
    fault("`isel` takes one", fhpgas.Blocks.from_xarray, many)
    assert dataset.generation.dtype.kind == "f"
    assert sys.getsizeof(summed) > 4 * 8 * 100
    assert start.to_xarray().X.dtype == np.float32


def test_means_have_their_errors():
    """Of 1, 2, 3 and 6 the squared deviations from 3 are 14, so the error is sqrt(14 / 12)."""
    error = math.sqrt(14 / 12)
    same(fhpgas.mean_and_error([1, 2, 3, 6]), (3, error))
    found = fhpgas.mean_and_error(np.outer([1, 2, 3, 6], [1, -2]))
    same(found, ([3, -6], [error, 2 * error]))


def test_a_series_counts_its_independent_values():
    """Of an autoregressive series x(t + 1) = a x(t) + noise with n values there are n (1 - a) / (1 + a)."""
    noise, number = np.random.default_rng(1).normal(size=(20_000, 3)), 20_000
    for a in (0, 0.5, 0.9):
        series = noise.copy()
        for before, after in zip(series, series[1:]):
            after += a * before
        found = fhpgas.mean_of_series(series)
        wanted, tau = number * (1 - a) / (1 + a), (1 + a) / (1 - a) / 2
        apart = 4 * math.sqrt(2 * (10 * tau + 1) / number)  # by the rule's source
        assert abs(found.independent / wanted - 1).max() < apart
        assert abs(found.error * (1 - a) * math.sqrt(number) - 1).max() < apart
        same(found.mean, series.mean(0))
    of_one = fhpgas.mean_of_series(series[:, 0])
    assert of_one.independent == pytest.approx(found.independent[0], abs=1e-7)
    assert fhpgas.mean_of_series([2, 2, 2]) == (2, 0, 3)
    fault("two values or more", fhpgas.mean_of_series, [1])
