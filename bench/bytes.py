#!/usr/bin/env python3
"""FHP-I in numpy as one would write it in an afternoon, to compare the speed and the output of fhpgas with: an array of bytes, a table of
collisions, the lattice shifted by direction. It reads the cells that `fhpgas run --generations 0` prints, computes G generations under
chirality "left", and prints the cells, and on standard error the seconds that the generations took.

Usage: bytes.py G < CELLS
"""
import sys
import time

import numpy as np

BITS = (1, 2, 4, 8, 16, 32)  # of the directions, counterclockwise from east
COLLISIONS = np.arange(64, dtype=np.uint8)
for before, after in ((9, 18), (18, 36), (36, 9), (21, 42), (42, 21)):
    COLLISIONS[before] = after
COLUMNS = (
    (1, 1),
    (0, 1),
    (-1, 0),
    (-1, -1),
    (-1, 0),
    (0, 1),
)  # that the directions move by, in even rows and in odd ones
ROWS = (0, -1, -1, 0, 1, 1)


def shifted(cells, even, columns, sign):
    """The rows moved by the columns of a direction, or back."""
    return np.where(
        even[:, None], np.roll(cells, sign * columns[0], 1), np.roll(cells, sign * columns[1], 1)
    )


def step(states, solid):
    """The next generation. What would enter a solid cell or a wall stays in its cell, turned about."""
    height, width = states.shape
    even = np.arange(height) % 2 == 0
    collided, moved = COLLISIONS[states], np.zeros_like(states)
    walls = np.ones((height + 2, width), bool)
    walls[1:-1] = solid
    for i, bit in enumerate(BITS):
        target = slice(1 + ROWS[i], height + 1 + ROWS[i])
        went = np.zeros((height + 2, width), bool)
        went[target] = shifted((collided & bit) != 0, even, COLUMNS[i], 1)
        moved |= np.where((went & ~walls)[1:-1], bit, 0).astype(np.uint8)
        sent_back = shifted((went & walls)[target], even, COLUMNS[i], -1)
        moved |= np.where(sent_back, BITS[(i + 3) % 6], 0).astype(np.uint8)
    return moved


def read_cells():
    head, *lines = sys.stdin.read().splitlines()
    rows = [[line[x : x + 2] for x in range(0, len(line), 2)] for line in lines]
    states = [[int(cell, 16) if cell not in ("..", "##") else 0 for cell in row] for row in rows]
    solid = [[cell == "##" for cell in row] for row in rows]
    return int(head.split()[1]), np.array(states, np.uint8), np.array(solid, bool)


def print_cells(generation, states, solid):
    cells = [
        ["##" if is_solid else f"{state:02x}" if state else ".." for state, is_solid in zip(*rows)]
        for rows in zip(states.tolist(), solid.tolist())
    ]
    particles = sum(state.bit_count() for row in states.tolist() for state in row)
    print(f"generation {generation} particles {particles}")
    print("\n".join(map("".join, cells)))


def main():
    generations = int(sys.argv[1])
    first, states, solid = read_cells()
    begun = time.perf_counter()
    for _ in range(generations):
        states = step(states, solid)
    print(f"{time.perf_counter() - begun:.6f}", file=sys.stderr)
    print_cells(first + generations, states, solid)


if __name__ == "__main__":
    main()
