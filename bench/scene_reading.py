#!/usr/bin/env python3
"""Seconds that reading a scene takes, the best of several runs that take turns. Use an idle machine.

A map of random cells, once of all kinds alike and once a third empty and about a third solid: the parse (the same text with an unknown key
is refused right after it), `check`, which checks, builds and counts, and `run --generations 0`, which prints the lattice too. An area of
the same number of cells: `check` at rate 300 and at rate 0, and only the words of the key stream that filling it takes.
Usage: bench/scene_reading.py [SIDE [RUNS]]
"""
import pathlib
import random
import subprocess
import sys
import tempfile
import time

from site_updates import KEY_STREAM, PROGRAM, build

side = int(sys.argv[1]) if len(sys.argv) > 1 else 4096
runs = int(sys.argv[2]) if len(sys.argv) > 2 else 7
text_bytes = side * (2 * side + 1)
words_of_filling = 6 * side * side
states = [f"{state:02x}" for state in range(64)]
MAPS = {
    "map": ["..", "##", *states],
    "map, many empty and solid": [".."] * 64 + ["##"] * 32 + states,
}


def seconds(scene, program, *words):
    """The seconds that a program takes on the scene."""
    with open(scene) as text:
        begun = time.perf_counter()
        subprocess.run(
            [program, *words], stdin=text, stdout=subprocess.DEVNULL, stderr=subprocess.DEVNULL
        )
        return time.perf_counter() - begun


def jobs(room):
    """What is measured, by its name: a scene and a command."""
    random.seed(1)
    for name, cells in MAPS.items():
        rows = "".join(f'  "{"".join(random.choices(cells, k=side))}",\n' for _ in range(side))
        whole, refused = room / name, room / f"{name}, refused"
        whole.write_text(f'gas = "fhp1"\ncells = [\n{rows}]\n')
        refused.write_text(f'unknown = 1\ngas = "fhp1"\ncells = [\n{rows}]\n')
        yield from {
            f"{name}: parse": (refused, PROGRAM, "check"),
            f"{name}: check": (whole, PROGRAM, "check"),
            f"{name}: run --generations 0": (whole, PROGRAM, "run", "--generations", "0"),
        }.items()
    for rate in 300, 0:
        area = room / f"area{rate}"
        area.write_text(f'gas = "fhp1"\nwidth = {side}\nheight = {side}\nrate = {rate}\n')
        yield f"area at rate {rate}: check", (area, PROGRAM, "check")
        yield f"key stream at rate {rate}", (
            area,
            *KEY_STREAM,
            str(words_of_filling // 4096 if rate else 0),
        )


with tempfile.TemporaryDirectory() as folder:
    build(pathlib.Path(folder))
    measured = dict(jobs(pathlib.Path(folder)))
    best = {
        job: min(times)
        for job, times in zip(
            measured, zip(*([seconds(*words) for words in measured.values()] for _ in range(runs)))
        )
    }
for job, time_taken in best.items():
    print(f"{job}: {time_taken:.3f} s")
for name in MAPS:
    parse, read, printed = (
        best[f"{name}: {job}"] for job in ("parse", "check", "run --generations 0")
    )
    print(
        f"{name}: checks, building and counting take {(read - parse) / parse:.2f} times the parse"
    )
    print(
        f"{name}: read at {text_bytes / read / 1e6:.0f} MB/s, printed at {text_bytes / (printed - read) / 1e6:.0f} MB/s"
    )
for name, job in ("filling", "area at rate {}: check"), (
    "key stream alone",
    "key stream at rate {}",
):
    print(
        f"{name}: {words_of_filling / (best[job.format(300)] - best[job.format(0)]) / 1e6:.0f} million words a second"
    )
