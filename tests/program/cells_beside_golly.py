"""Compares the built program with Golly's rule HPP, which other people wrote, on random lattices of
HPP. Golly keeps a cell's particles as they leave the cell, so its state is ours after the collision.
Its torus has no walls, so only rows are compared that no wall can have reached."""

import random
import re

import needs
import pytest

RULES = "/usr/share/golly/Rules/"
BITS = {1: 4, 2: 2, 4: 1, 8: 8}  # our east, north, west and south in Golly's state
HEAD_ON = {5: 10, 10: 5}
LETTERS = ".ABCDEFGHIJKLMNO"  # Golly's states 0 to 15 in a pattern


def leaving(state):
    """Golly's state for the particles of a cell before their collision."""
    collided = HEAD_ON.get(state, state)
    return sum(theirs for ours, theirs in BITS.items() if collided & ours)


def after_golly(rows, generations, room):
    """The rows of a torus after so many generations of Golly."""
    width, height = len(rows[0]), len(rows)
    lines = "$\n".join("".join(LETTERS[leaving(state)] for state in row) for row in rows)
    (room / "before.rle").write_text(
        f"x = {width}, y = {height}, rule = HPP:T{width},{height}\n{lines}!\n"
    )
    words = f"bgolly -a RuleLoader -s {RULES} -q -q -m {generations} -o".split()
    needs.printed([*words, room / "after.rle", room / "before.rle"])
    found = [[0] * width for _ in range(height)]
    x = y = 0
    text = re.sub(r"^#.*\n|^x =.*\n", "", (room / "after.rle").read_text(), flags=re.M)
    for count, letter in re.findall(r"(\d*)([.A-O$])", text.partition("!")[0]):
        times = int(count or 1)
        if letter == "$":
            x, y = 0, y + times
        else:
            found[y][x : x + times] = [LETTERS.index(letter)] * times
            x += times
    return found


def after_ours(program, rows, generations):
    """The same rows after our generations, as Golly's states."""
    cells = ["".join(f"{state:02x}" for state in row) for row in rows]
    words = [program, "run", "--generations", generations]
    printed = needs.printed(words, f'gas = "hpp"\ncells = {cells}\n'.encode()).decode()
    pairs = (
        [row[at : at + 2] for at in range(0, len(row), 2)] for row in printed.split("\n")[1:-1]
    )
    return [[leaving(0 if pair == ".." else int(pair, 16)) for pair in row] for row in pairs]


@pytest.mark.parametrize("number", range(60))
def test_lattice(program, tool, tmp_path, number):
    tool("bgolly")
    rng = random.Random(number)
    generations, width, rate = rng.randint(1, 40), rng.randint(4, 130), rng.choice([0.05, 0.2, 0.5])
    height = 2 * generations + rng.randint(2, 40)
    rows = [
        [sum((rng.random() < rate) << i for i in range(4)) for _ in range(width)]
        for _ in range(height)
    ]
    kept = slice(generations, height - generations)
    ours, golly = after_ours(program, rows, generations), after_golly(rows, generations, tmp_path)
    assert ours[kept] == golly[kept]
