"""Tests fhpgas.tiles with four workers of Dask on this machine. Lattices are compared bit for bit
with one run."""

import concurrent.futures
import contextlib
import functools
import os
import random
import re
import signal
import time

import needs
import pytest
from package_case import fault

needs.libraries("distributed", "zarr")
import dask.sizeof
import distributed
import fhpgas
import fhpgas.tiles
import numpy
from fhpgas.gas_table import GASES

pytestmark = [pytest.mark.alone, pytest.mark.filterwarnings("ignore")]
NAMES = sorted(GASES, key=lambda name: GASES[name].units)


@pytest.fixture
def workers():
    """Starts four workers, each with at most so many bytes, and returns their client."""
    known = {"n_workers": 4, "threads_per_worker": 1, "dashboard_address": None}
    with contextlib.ExitStack() as stack:

        def started(memory=2_000_000_000):
            cluster = stack.enter_context(distributed.LocalCluster(**known, memory_limit=memory))
            return stack.enter_context(distributed.Client(cluster))

        yield started


@pytest.fixture
def client(workers):
    return workers()


def test_random_tilings(client, tmp_path):
    """Tilings of small lattices with obstacles: split and run, drawn by the workers, and kept."""
    for number in range(30):
        rng = random.Random(number)
        gas, chirality = rng.choice(NAMES), rng.choice(("left", "right", "seeded"))
        size = fhpgas.Size(rng.choice([5, 17, 64, 70]), rng.choice([20, 34, 64]))
        tile = rng.choice([16, 35, 100]), rng.choice([10, 16, 21])
        if chirality == "seeded" and not fhpgas.gas_named(gas).is_square:
            tile = 100, tile[1]
        solid = numpy.random.default_rng(number).random(size.shape) < 0.05
        known = dict(size=size, gas=gas, chirality=chirality, seed=number)
        whole = fhpgas.draw_gas(0.3, 0.2, 0.1, solid=solid, **known)
        tiles = fhpgas.tiles.split(client, whole, tile)
        assert is_even(tiles, tile), number
        sides = [min(chunks) for chunks in tiles.cells.chunks if len(chunks) > 1]
        margin = max(1, min(sides, default=20) // 2 * 2 - rng.randint(0, 1))
        generations = rng.randint(1, 12) if min(sides, default=2) > 1 else 0
        later = tiles.run(generations, min(margin, rng.randint(1, 12)), tmp_path, rng.randint(1, 3))
        assert later.gather() == whole.run(generations), number
        assert tiles == tiles != later or not generations, number
        kept = fhpgas.tiles.load(client, tmp_path)
        assert kept.gather() == later.gather(), number
        block = rng.randint(1, 20), rng.randint(1, 20)
        assert tiles.blocks(*block) == whole.blocks(*block), number
        X, Y = fhpgas.positions(size, gas)
        draw = functools.partial(fhpgas.tiles.draw_gas, client, tile=tile, **known)
        wanted = fhpgas.draw_gas(0.3, wave(X, Y), solid=round_body(X, Y), **known)
        drawn = draw(0.3, wave, solid=round_body).gather()
        assert drawn == wanted, number
        filling = (0.3 + 0 * Y, 0.1 + 0.001 * X, numpy.full(size.columns, 0.2))[number % 3]
        wanted = fhpgas.draw_gas(filling, solid=solid, **known)
        assert draw(filling, solid=solid).gather() == wanted, number


def is_even(tiles, tile):
    """All tiles but the last ones have one size, which is at most the given one, and as few rows and columns of tiles as these have."""
    heights, widths = tiles.cells.chunks
    counts = -(-tiles.size.rows // (tile[1] // 2 * 2)), -(-tiles.size.columns // tile[0])
    is_even = all(height % 2 == 0 for height in heights[:-1])
    for sides, most, count in zip((heights, widths), tile[::-1], counts):
        is_even &= len(sides) == count and max(sides) <= most
        is_even &= len({*sides[:-1]}) < 2 and sides[-1] <= sides[0]
        is_even &= max(sides) - min(sides) < 2 * len(sides)
    return is_even


def wave(X, Y):
    return 0.1 * numpy.sin(Y / 9) + 0.01 * numpy.cos(X)


def round_body(X, Y):
    return numpy.hypot(X - 9, Y - 8) < 3


def test_refusals(client, tmp_path):
    """What does not fit is refused before a worker draws."""

    def filling(X, Y):
        if X.size > 1:
            (tmp_path / "drawn").touch()
        return 0.2 + 0 * X

    size, tile = fhpgas.Size(64, 48), (32, 16)
    draw = functools.partial(fhpgas.tiles.draw_gas, client, size=size, tile=tile, chirality="left")
    tiles = draw(filling)
    assert draw(0.2) == draw(0.2) and hash(draw(0.2)) == hash(draw(0.2))
    fault("", lambda: draw(0.2, solid=lambda X, Y: X - 9))  # distances as solid cells
    fault("", lambda: draw(numpy.ones((3, 4))))  # a filling of another shape
    assert draw(0.2).run(0, kept=tmp_path / "none").gather() == draw(0.2).gather()
    assert fhpgas.tiles.load(client, tmp_path / "none").gather() == draw(0.2).gather()
    fault("", lambda: tiles.run(100, margin=17))  # a margin larger than a tile
    fault("", lambda: tiles.run(100, 2, tmp_path, 0))  # no interval
    fault("", lambda: draw(0.2, tile=(64, 1)))  # tiles of one row
    fault("", lambda: draw(1.2))  # a filling of more than 1
    fault("", lambda: draw(filling, lambda X, Y: 2 + 0 * X))  # a velocity that no gas has
    for gas in "fhp1", "fhp-rest":
        fault("", lambda: draw(0.2, gas=gas, chirality="seeded"))  # random bits
    usual = functools.partial(fhpgas.tiles.draw_gas, client, 0.2, size=size)
    fault("", lambda: usual(tile=tile))  # random bits unless told
    for seed in (0, *numpy.random.SeedSequence(3).spawn(2)):
        drawn = usual(tile=(64, 16), seed=seed).gather()
        assert drawn == fhpgas.draw_gas(0.2, size=size, seed=seed)
    vast = draw(filling, size=fhpgas.Size(140_000, 4), tile=(70_000, 4))
    fault("", lambda: vast.run(100, 4))  # a tile that no lattice can be
    (tmp_path / "empty").mkdir()
    for name in "empty", "missing":
        fault("", lambda: fhpgas.tiles.load(client, tmp_path / name))
    assert not (tmp_path / "drawn").exists(), "nothing is drawn before"
    assert tiles.particles == tiles.gather().particles
    assert (tmp_path / "drawn").exists(), "the tiles are drawn then"
    later = [each.gather() for each in tiles.every(3, 2)][2]
    assert later == tiles.gather().run(6)
    wrong = draw(lambda X, Y: numpy.where(X.size > 1, 2.0, 0.2) + 0 * X)
    fault("", wrong.wait)  # what fails in a worker


def test_printed_examples(client):
    """The sizes of the printed examples fit, and the same examples run, a fiftieth as long."""
    for path in "docs/GUIDE.md", "python/fhpgas/tiles.py":
        text = (needs.ROOT / path).read_text()

        def numbers(before, count):
            found = re.search(before + ", ".join([r"([\d_]+)"] * count), text)
            return tuple(map(int, found.groups()))

        size, tile = (numbers(before, 2) for before in (r"Size\(", r"tile=\("))
        (margin,) = numbers("margin=", 1)
        known = {"size": fhpgas.Size(*size), "tile": tile, "chirality": "left"}
        fhpgas.tiles.draw_gas(client, 0.2, **known)._check_margin(margin)
        size, tile = fhpgas.Size(*(side // 50 for side in size)), (tile[0] // 50, tile[1] // 50)
        assert 'chirality="left"' in text, path
        known |= {"size": size, "tile": tile}
        drawn = fhpgas.tiles.draw_gas(client, 0.2, east=0.1, **known)
        later = drawn.run(12, margin // 50).gather()
        assert later == drawn.gather().run(12), path
    part = fhpgas.Lattice(numpy.zeros((64, 1024), numpy.uint8))
    assert 131072 <= dask.sizeof.sizeof(part) < 132000, "Dask knows how long a lattice is"


def parts_of(client):
    """A list to which every tile that a worker computes from now on adds this worker."""

    class Parts(distributed.SchedulerPlugin):
        workers = []

        def transition(self, key, start, finish, *words, worker=None, **more):
            is_tile = str(key).startswith(("('_trim", "('trim"))  # not what tells a tile its place
            if is_tile and (start, finish) == ("processing", "memory"):
                self.workers.append(worker)

    client.cluster.scheduler.add_plugin(Parts())
    return Parts.workers


def eight_tiles(client, filling):
    drawn = functools.partial(fhpgas.tiles.draw_gas, client, size=fhpgas.Size(512, 512), seed=3)
    return drawn(filling, 0.1, tile=(512, 64))


def test_killed_worker(client, tmp_path):
    """A worker is killed in the middle of a run that keeps its tiles, and costs at most one
    interval: 8 tiles, 2 exchanges, 40 of the run."""
    tiles, parts = eight_tiles(client, 0.2), parts_of(client)
    whole, pids = tiles.gather().run(400), client.run(os.getpid)
    parts.clear()
    with concurrent.futures.ThreadPoolExecutor(1) as threads:
        later = threads.submit(tiles.run, 400, 10, tmp_path, 2)
        while len(parts) < 8 * 15 and not later.done():
            time.sleep(0.001)
        os.kill(pids[min(pids)], signal.SIGKILL)
        assert later.result().gather() == whole
    assert 8 * 40 <= len(parts) <= 8 * (40 + 2), "it costs at most an interval"


def test_added_workers(client, tmp_path):
    """Two workers that come to four when a run has begun compute a tenth of its parts or more. The run waits for them where it draws."""

    def filling(X, Y):
        while X.size > 1 and not (tmp_path / "added").exists():
            time.sleep(0.01)
        return 0.2 + 0 * X

    first, parts = {*client.nthreads()}, parts_of(client)
    with concurrent.futures.ThreadPoolExecutor(1) as threads:
        later = threads.submit(eight_tiles(client, filling).run, 400, 10, tmp_path / "kept", 2)
        client.cluster.scale(6)
        client.wait_for_workers(6)
        (tmp_path / "added").touch()
        run = later.result()
    whole = eight_tiles(client, 0.2).gather().run(400)
    assert run.gather() == whole
    assert sum(worker not in first for worker in parts) >= 8 * 40 // 10, "added workers compute"


def test_a_saved_run_goes_on(workers, tmp_path):
    """Half of a run, saved twice, of which a later client makes the rest."""
    known, client = {"size": fhpgas.Size(300, 200), "chirality": "left", "seed": 4}, workers()
    tiles = fhpgas.tiles.draw_gas(client, 0.2, 0.1, tile=(100, 64), **known)
    half = tiles.run(20, margin=6).save(tmp_path).run(30, margin=8).save(tmp_path)
    assert half.gather() == tiles.gather().run(50)
    assert len([path for path in tmp_path.iterdir() if path.is_dir()]) == 1  # old tiles are gone
    client.close()
    later = fhpgas.tiles.load(workers(), tmp_path).run(50, margin=8)
    assert later.gather() == fhpgas.draw_gas(0.2, 0.1, **known).run(100)


def test_little_memory(workers, memory):
    """A lattice of 537 million bytes, of which no worker may have more than 450 million."""
    memory(4)
    size, tile = fhpgas.Size(32768, 16384), (4096, 1024)
    known = {"size": size, "tile": tile, "chirality": "left", "seed": 5}
    tiles = fhpgas.tiles.draw_gas(workers(450_000_000), 0.2, **known).wait()
    before = tiles.particles
    assert tiles.run(4).particles == before > 2**29
