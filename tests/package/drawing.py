"""Compares gases and shapes that are drawn with plain second implementations, or with values made by hand."""

import hashlib
import itertools
import math
import os
import subprocess
import sys

import pytest
from package_case import AREA, GASES, ROOT3, fault, same

import fhpgas
import numpy as np
from fhpgas import Size
from PIL import Image


def plainly_drawn(chances, columns, rows, seed):
    """The states by the rule of `fhpgas.fields.drawn`, cell by cell, for the chances [direction][row]."""
    bits, states = np.random.PCG64(seed), np.zeros((rows, columns), np.uint8)
    for y, i in itertools.product(range(rows), range(len(chances))):
        words = bits.random_raw(-(-columns // 4)).tolist()
        lots = [word >> 16 * k & 0xFFFF for word in words for k in range(4)]
        for x in range(columns):
            states[y, x] |= (lots[x] < round(65536 * chances[i][y])) << i
    return states


def test_an_equilibrium_is_that_of_fermi_and_dirac():
    """It has the wanted moments, and collisions keep it: the odds of the particles before and after are the same."""
    flows = (0.2, 0.3, 0.0), (0.5, 0.1, -0.2), (0.9, 0.02, 0.03), (0.1, 0.0, 0.4)
    d, u, v = np.array([*flows, (0, 0, 0), (1, 0, 0)]).T
    for gas in map(fhpgas.gas_named, GASES):
        chances = fhpgas.equilibrium(gas, d, u, v)
        moments = chances.sum(0), *(gas.velocities.T @ chances)
        same(moments, gas.directions * d * np.array([np.ones(6), u, v]))
        odds = np.log(chances[:, :4] / (1 - chances[:, :4]))
        after = gas.collisions("left")[: 1 << gas.directions]
        same(gas.bits[: len(after)] @ odds, gas.bits[after] @ odds, 10)
    same(fhpgas.equilibrium("hpp", 0.2), [0.2] * 4)


def test_a_gas_is_drawn_from_the_raw_bits_of_pcg64():
    """Cell by cell, with or without vector instructions, row by row or at once."""
    seed, shear = (1 << 40) + 5, (0.2, 0.3 * np.cos(np.arange(500) / 9)[:, None], 0.0)
    hashes = []
    for name in GASES:
        gas = fhpgas.gas_named(name)
        known = 0.2, shear[1][:11]
        found = fhpgas.draw_gas(*known, size=Size(37, 11), gas=name, seed=seed).states
        plain = plainly_drawn(fhpgas.equilibrium(gas, *known)[..., 0], 37, 11, seed)
        assert found.tolist() == plain.tolist()
        hashes.append(hashlib.sha256(found.tobytes()).hexdigest())
        values = [np.array(field) for field in shear]
        whole = fhpgas.fields.drawn(gas, values, (500, 130), 9)
        places = (0, 1, 0, 130), (1, 300, 0, 129), (300, 500, 3, 8), (2, 9, 4, 130)
        for first, last, left, right in (*places, (499, 500, 129, 130)):
            part = [value[first:last] if value.ndim else value for value in values]
            shape = last - first, right - left
            found = fhpgas.fields.drawn(gas, part, shape, 9, (first, left), 130)
            assert found.tolist() == whole[first:last, left:right].tolist()
    script = (
        "import fhpgas, hashlib, numpy as np; east = 0.3 * np.cos(np.arange(11) / 9)[:, None]\n"
        f"known = dict(size=fhpgas.Size(37, 11), seed={seed})\nfor gas in {GASES}:\n"
        "    states = fhpgas.draw_gas(0.2, east, gas=gas, **known).states\n"
        "    print(hashlib.sha256(states).hexdigest())"
    )
    core = getattr(np, "_core", None) or np.core
    features = " ".join(core._multiarray_umath.__cpu_dispatch__)
    known = {"env": os.environ | {"NPY_DISABLE_CPU_FEATURES": features}, "check": True}
    words = [sys.executable, "-c", script]
    done = subprocess.run(words, **known, capture_output=True, text=True)
    assert done.stdout.split() == hashes


def test_the_same_fields_draw_the_same_gas():
    X, Y = fhpgas.positions(Size(64, 47))
    disc = fhpgas.disc(Size(64, 47), 20, 20, 8)
    one = fhpgas.draw_gas(0.3, X / 200, solid=disc, seed=2)
    for fields in (
        [[[0.3]] * 47, X / 200],
        [0.3 + 0 * X, lambda X, Y: X / 200],
        [lambda X, Y: 0.3 + 0 * Y, X / 200, 0 * Y[0]],
    ):
        assert fhpgas.draw_gas(*fields, size=Size(64, 47), solid=disc, seed=2) == one
    states = np.where(disc, 0, fhpgas.draw_gas(0.3, X / 200, seed=2).states)
    assert one == fhpgas.Lattice(states, disc, seed=2)
    assert fhpgas.draw_gas(0.3, X / 200, solid=disc, seed=3) != one
    west, east = one.blocks(32, 47).east[0]
    assert east > west
    along, size = np.arange(64) / 200, Size(64, 47)  # a profile along the rows
    other = fhpgas.draw_gas(0.3, lambda X, Y: X / 200 + 0 * Y, size=size, gas="hpp")
    assert fhpgas.draw_gas(0.3, along, size=size, gas="hpp") == other
    assert fhpgas.draw_gas(1, size=Size(5, 4)).particles == 120
    drawn = (fhpgas.draw_gas(part / 65536, size=Size(1024, 512)) for part in (0.4, 0.6))
    none, few = (lattice.particles for lattice in drawn)  # of numbers that are 0, 48 as a mean
    assert none == 0 and abs(few - 48) < 5 * math.sqrt(48), (none, few)


def test_discs_have_the_cells_within_their_radius():
    """On the triangular lattice 1, 7 and 19 cells lie within 0, 1 and 2 steps, on the square lattice 1, 5 and 13. Past the end too."""
    steps = (0, 1, 1), (1, 7, 5), (2, 19, 13)
    for row, (radius, hexagon, square) in itertools.product((8, 9), steps):
        known = Size(40, 24), 39, row, radius
        found = [fhpgas.disc(*known, gas).sum() for gas in ("fhp1", "hpp")]
        assert found == [hexagon, square]
    places = (0, 5.5), (7, 11), (22, 7 * ROOT3), (23, 60), (12, math.sqrt(43))
    for gas, (row, radius) in itertools.product(("fhp1", "hpp"), places):
        X, Y = fhpgas.positions(Size(40, 24), gas)
        shifted = (X - X[row, 33] + lap for lap in (-80, -40, 0, 40, 80))
        apart = np.min([np.hypot(x, Y - Y[row]) for x in shifted], 0)
        same(fhpgas.disc(Size(40, 24), 33, row, radius, gas), apart <= radius + 1e-9)


def test_shapes_have_their_cells():
    corners = [(5, 5), (60, 12), (30, 55)]
    edges = zip(corners, corners[1:] + corners[:1])
    area = abs(sum(a * d - b * c for (a, b), (c, d) in edges)) / 2
    found = fhpgas.polygon(Size(80, 64), corners).sum()
    assert found == pytest.approx(area, abs=60)  # half of the cells at its rim
    box = np.zeros((9, 12), bool)
    box[2:5, 3:7] = True
    for x in (3, 11):
        found = fhpgas.polygon(Size(12, 9), [(x, 2), (x + 4, 2), (x + 4, 5), (x, 5)], "hpp")
        assert found.tolist() == np.roll(box, x - 3, 1).tolist()
    twice = [(0, 0), (10, 0), (10, 10), (0, 10), (0, 0), (5, 0), (5, 5), (0, 5)]
    crossed = fhpgas.polygon(Size(20, 20), twice, "hpp")
    assert (crossed.sum(), crossed[2, 2], crossed[2, 7]) == (75, False, True)
    porous, nozzle = fhpgas.porous(Size(60, 40), 0.25, 2, 5), fhpgas.nozzle(Size(64, 31), 7, 40)
    assert 600 <= porous.sum() < 619
    assert porous.tolist() == fhpgas.porous(Size(60, 40), 0.25, 2, 5).tolist()
    assert fhpgas.porous(Size(6, 5), 1, 0).all()
    openings = (31 - nozzle.sum(0)).tolist()
    assert (min(openings), openings[32]) == (7, 7)
    assert {*openings[:12], *openings[52:]} == {31}
    assert openings[:33] == sorted(openings[:33])[::-1]
    for solid in (porous, nozzle | fhpgas.disc(Size(64, 31), 0, 15, 3), box, ~box):
        again = np.zeros_like(solid, int)
        for x, y, w, h in fhpgas.shapes.rectangles(solid):
            again[y : y + h, x : x + w] += 1
        assert again.tolist() == solid.astype(int).tolist()
    parts = [[0, 0, 12, 2], [0, 2, 3, 3], [7, 2, 5, 3], [0, 5, 12, 4]]
    assert fhpgas.shapes.rectangles(~box) == parts


def test_a_picture_is_a_mask(tmp_path):
    """The same letter as PBM, in both kinds, as PNG in grey, of 16 bits, in colours, of a palette and transparent, and as an array."""
    rows = "###.", "#..#", "###.", "#.#.", "#..#"
    dark = np.array([[pixel == "#" for pixel in row] for row in rows])
    grey = Image.fromarray(np.where(dark, 90, 200).astype(np.uint8))
    solid = Image.fromarray(dark.astype(np.uint8) * 255)
    clear = Image.merge("RGBA", [Image.new("L", (4, 5), 30)] * 3 + [solid])
    deep = Image.fromarray(np.where(dark, 0x3000, 0xC000).astype(np.int32)).convert("I;16")
    bits = "\n".join(" ".join("01"[d] for d in row) for row in dark.tolist())
    (tmp_path / "plain.pbm").write_text("P1 # letter\n4 5\n" + bits)
    grey.convert("1", dither=Image.Dither.NONE).save(tmp_path / "bits.pbm")
    for k, image in enumerate((grey, grey.convert("P"), grey.convert("RGB"), clear, deep)):
        image.save(tmp_path / f"{k}.png")
    for picture in (*tmp_path.iterdir(), dark, dark.tolist(), 1 * dark, np.asarray(grey) < 128):
        found = fhpgas.bitmap(Size(12, 9), picture, 1, 2, 3, "hpp")
        assert found[3:8, 2:6].tolist() == dark.tolist()
        assert found.sum() == dark.sum()
    drawn = fhpgas.bitmap(Size(64, 40), dark, 6, 10, 4)
    places = (5, 12), (30, 12), (25, 24), (5, 30), (3, 12), (15, 20)
    assert [drawn[place] for place in places] == [1, 1, 1, 0, 0, 0]
    assert drawn.sum() == pytest.approx(dark.sum() * 36 / (ROOT3 / 2), abs=40)
    for column, row in ((41, 4), (10, 6), (-1, 4), (10, -1)):
        why = "the picture leaves the channel of 64 x 40 cells"
        fault(why, fhpgas.bitmap, Size(64, 40), dark, 6, column, row)
    for data in (b"GIF", (tmp_path / "0.png").read_bytes()[:50], b"P1\n4"):
        (path := tmp_path / "letter").write_bytes(data)
        fault(f"{path}: ", fhpgas.bitmap, Size(64, 40), path)


def test_a_seed_sequence_is_a_seed_and_so_is_each_that_it_spawns():
    """The seed is the first 63 bits of its state."""
    size, starts = Size(64, 47), set()
    for sequence in (np.random.SeedSequence(5), *np.random.SeedSequence(5).spawn(2)):
        bits, found = "".join(f"{word:032b}" for word in sequence.generate_state(2)), []
        for seed in sequence, int(bits[:63], 2):
            start = fhpgas.draw_gas(0.2, size=size, seed=seed)
            later = start.replace(seed=seed).run(3), fhpgas.with_seed(AREA, seed)
            points = [*start.driven(4, 2, force=0.01, seed=seed)]
            found.append([later, points, fhpgas.porous(size, 0.2, 2, seed).tolist()])
            starts.add(start)
        assert found[0] == found[1]
    assert len(starts) == 3


def test_equal_seeds_of_different_calls_are_separate_streams():
    """Their raw bits differ in half of all places, and `gas` has the ones of PCG64(seed)."""
    streams = [fhpgas.fields.lots_of(call, 5) for call in ("porous", "driven")]
    words = [stream.random_raw(1000) for stream in (np.random.PCG64(5), *streams)]
    for one, other in itertools.combinations(words, 2):
        differ = np.unpackbits((one ^ other).view(np.uint8)).mean()
        assert differ == pytest.approx(1 / 2, abs=5 * 0.5 / math.sqrt(64_000))
