#!/usr/bin/env python3
"""Milliseconds of `Lattice.run` by the engine in Python's process, on one thread and on one per core, and of the program with its threads, which
reads and prints text, at filling 0.2. They take turns in every round, and must make the same cells. A figure is the best of the rounds,
followed by the middle one. At last four calls run in one thread and in four.
"""
import argparse
import concurrent.futures
import itertools
import pathlib
import statistics
import sys
import time

ROOT = pathlib.Path(__file__).resolve().parent.parent
sys.path.append(str(ROOT / "python"))
import fhpgas  # noqa: E402

SIZES = (256, 256), (512, 512), (1024, 512), (2048, 1024), (4096, 1024)
KINDS = ("fhp-rest", "left"), ("fhp-rest", "seeded"), ("fhp1", "left"), ("hpp", "left")
GENERATIONS = 1, 50, 400, 1000, 2000


def timed(function):
    """What a function returns, and the milliseconds that it takes."""
    begun = time.perf_counter()
    found = function()
    return found, 1e3 * (time.perf_counter() - begun)


def told(times):
    return f"{min(times):9.2f} {statistics.median(times):9.2f}"


def compare(lattice, generations, rounds):
    """Prints the times of a run in three ways."""
    scene = lattice.scene()
    ways = (
        lambda: lattice.run(generations, 1),
        lambda: lattice.run(generations),
        lambda: fhpgas.run(scene, generations),
    )
    times = [[], [], []]
    for _ in range(rounds):
        ends = [timed(way) for way in ways]
        if len({end for end, _ in ends}) > 1:
            sys.exit("the cells differ")
        for row, (_, spent) in zip(times, ends):
            row.append(spent)
    print(f"{generations:8}  {'  '.join(map(told, times))}", flush=True)


def four(lattice, rounds):
    """Prints how many times the speed of one thread four threads have."""
    alone, together = [], []
    with concurrent.futures.ThreadPoolExecutor(4) as pool:
        for _ in range(rounds):
            alone.append(timed(lambda: lattice.run(400, 1))[1])
            calls = [pool.submit(lattice.run, 400, 1) for _ in range(4)]
            together.append(timed(lambda: [call.result() for call in calls])[1])
    speed = 4 * min(alone) / min(together)
    print(f"four calls in four threads have {speed:.2f} times the speed of one")


def main():
    parser = argparse.ArgumentParser(
        description=__doc__, formatter_class=argparse.RawTextHelpFormatter
    )
    parser.add_argument("--rounds", type=int, default=5)
    rounds = parser.parse_args().rounds
    for size, (gas, chirality) in itertools.product(SIZES, KINDS):
        start = fhpgas.draw_gas(0.2, size=fhpgas.Size(*size), gas=gas, chirality=chirality, seed=1)
        print(f"{size[0]} x {size[1]} {gas} {chirality}, one thread, one per core, and the program")
        for generations in GENERATIONS:
            compare(start, generations, rounds)
    four(fhpgas.draw_gas(0.2, size=fhpgas.Size(1024, 512), gas="fhp-rest", seed=1), rounds)


if __name__ == "__main__":
    main()
