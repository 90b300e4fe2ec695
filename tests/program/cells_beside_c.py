"""Compares the built program with C programs that compute the same lattices in other ways, on twenty
random maps with obstacles: oracles/bytes.c, cell by cell from tables, for every gas, and
oracles/bands.c, on bit planes cut into bands, for FHP-I. The gases, chiralities, sizes, first
generations and plans take turns, and seeds are fixed. Then many small areas of any width (--areas
says how many), each with another gas, plan and obstacles, and the longest line. All must print the
same bytes."""

import itertools
import random

import needs
import pytest
from fhpgas import gas_table

ROWS = sorted(gas_table.GASES.items(), key=lambda row: row[1].units)  # triangular lattices first
GASES = {name: len(row.momenta) for name, row in ROWS}  # and their directions
CHIRALITIES = ["left", "right", "seeded"]
SIZES = (
    "1024x1024 63x700 2701x150 64x513 777x1000 1x300 5000x90 130x64 1000x999 65x2 6500x64".split()
)
# stages, places per belt, threads
PLANS = "1 1 1|4 2 4|3 1024 2|64 1 5|16 128 4|2 8 1|7 33 3|33 3 33".split("|")
GENERATIONS = range(150, 500)


def drawn(rng, width, height, directions):
    """The rows of a map: cells whose directions are filled with one probability, single solid cells, and some solid rectangles."""
    states = range(1 << directions)
    rate = rng.choice([0.02, 0.1, 0.3, 0.6])
    chance = lambda number: rate**number * (1 - rate) ** (directions - number)
    weights = [chance(state.bit_count()) for state in states]
    cells = [f"{state:02x}" if state else ".." for state in states] + ["##"]
    weights.append(rng.choice([0, 0.001, 0.02]))
    rows = [rng.choices(cells, weights, k=width) for _ in range(height)]
    for _ in range(rng.randrange(6)):
        left, top = rng.randrange(width), rng.randrange(height)
        right = min(width, left + rng.randint(1, 200))
        bottom = min(height, top + rng.randint(1, 100))
        for row in rows[top:bottom]:
            row[left:right] = ["##"] * (right - left)
    return ["".join(row) for row in rows]


@pytest.fixture(scope="session")
def by_bands(compiled):
    return compiled("oracles/bands.c", "-O3", "-march=x86-64-v2", "-pthread")


@pytest.mark.parametrize("number", range(20))
def test_map(program, by_bytes, by_bands, number):
    rng = random.Random(number)
    kinds = [*itertools.product(GASES.items(), CHIRALITIES)]
    (gas, directions), chirality = kinds[number % len(kinds)]
    width, height = map(int, SIZES[number % len(SIZES)].split("x"))
    stages, capacity, threads = PLANS[number % len(PLANS)].split()
    plan = ["--stages", stages, "--capacity", capacity, "--threads", threads]
    first, seed = rng.choice([0, 1, 2**32 - 100, 10**12]), rng.randrange(2**63)
    generations = rng.choice(GENERATIONS)
    rows = drawn(rng, width, height, directions)
    keys = f'version = 2\ngas = "{gas}"\nchirality = "{chirality}"\nseed = {seed}\ngeneration = {first}\n'
    scene = f"{keys}cells = {rows}\n".encode()
    ours = needs.printed([program, "run", "--generations", generations, *plan], scene)
    word = seed if chirality == "seeded" else chirality
    start = "\n".join([f"generation {first} particles 0", *rows, ""]).encode()
    is_alike = needs.printed([by_bytes, generations, word, gas], start) == ours
    assert is_alike, f"{gas}, {chirality}, {width} x {height}, {generations} generations, {plan}"
    if gas == "fhp1":
        is_alike = needs.printed([by_bands, generations, 3, word], start) == ours
        assert is_alike, f"by bands: {width} x {height}, {generations} generations, {plan}"


def any_width(rng):
    """Any number of columns, and often whole words or a few of them."""
    most = rng.choice([64, 300, 4096])
    return rng.choice([rng.randint(1, most), 64 * rng.randint(1, most // 64)])


def any_rectangle(rng, width, height):
    left, top = rng.randrange(width), rng.randrange(height)
    return [left, top, rng.randint(1, width - left), rng.randint(1, min(3, height - top))]


def any_plan(rng):
    stages, threads = rng.randint(1, 64), rng.randint(1, 5)
    some = ["--stages", stages, "--capacity", rng.choice([1, 2, 5, 128])]
    return rng.choice([[], some, ["--threads", threads], ["--stages", stages, "--threads", 1]])


def test_areas(program, by_bytes, pytestconfig):
    for number in range(pytestconfig.getoption("--areas")):
        rng = random.Random(number)
        gas, chirality = rng.choice([*GASES]), rng.choice(CHIRALITIES)
        width, height, seed = any_width(rng), rng.randint(1, 40), rng.randrange(2**40)
        solid = [any_rectangle(rng, width, height) for _ in range(rng.choice([0, 0, 1, 4]))]
        area = (
            f'version = 2\ngas = "{gas}"\nchirality = "{chirality}"\nseed = {seed}\nwidth = {width}\n'
            f"height = {height}\nrate = {rng.choice([50, 300, 700])}\nsolid = {solid}\n"
        ).encode()
        generations, plan = rng.randint(0, 90), any_plan(rng)
        start = needs.printed([program, "run", "--generations", 0], area)
        ours = needs.printed([program, "run", "--generations", generations, *plan], area)
        word = seed if chirality == "seeded" else chirality
        is_alike = needs.printed([by_bytes, generations, word, gas], start) == ours
        assert is_alike, f"{number}: {area.decode()}{generations} generations, {plan}"


@pytest.mark.alone
@pytest.mark.parametrize("threads", [64, 7])
def test_long_line(program, memory, by_bytes, threads):
    """6,000 rows go through 64 workers with 1,024 places in three passes, thousands of them at once."""
    memory(4)
    area = (
        b'version = 2\ngas = "fhp1"\nseed = 9\nwidth = 70\nheight = 6000\nrate = 300\n'
        b"solid = [[60, 500, 10, 9], [0, 5990, 3, 10]]\n"
    )
    start, plan = needs.printed([program, "run", "--generations", 0], area), ["--stages", 64]
    plan += ["--capacity", 1024, "--threads", threads]
    ours = needs.printed([program, "run", "--generations", 150, *plan], area)
    is_alike = needs.printed([by_bytes, 150, 9, "fhp1"], start) == ours
    assert is_alike  # and pytest shows no difference of so many lines
