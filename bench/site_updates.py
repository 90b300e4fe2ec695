#!/usr/bin/env python3
"""Site updates per second (cells times generations by seconds) of `fhpgas run` and of other programs that compute the same lattice of
FHP-I, filled at rate 300: one stage on one thread, C on bit planes in place, on one thread and in bands on all
(tests/program/oracles/bands.c), and what one would write in an afternoon, in C (tests/program/oracles/bytes.c) and in numpy (bytes.py, if
numpy is installed, and only with chirality "left"). Under a seed it also makes only the random bits of the same number of updates.

Every program takes its turn in every round. A figure is the best of the rounds, followed by the middle one, and the nanoseconds that a row and
generation took in the best: a core is free if C in place, on one thread, takes 35 at 256 columns. The cost of reading and
printing is taken off by runs of 0 generations: their best from the best, their middle from the middle, because the difference of two runs
says little if the machine was slow in one of them. All must print the same cells. All are built for the level of the processor that the
program was built for. Use an idle machine. Programs that keep a byte per cell compute a twentieth of the generations, and numpy a
two-hundredth. Their cells are compared with the cells of bands.c.
"""
import argparse
import collections
import hashlib
import importlib.util
import os
import pathlib
import statistics
import subprocess
import sys
import tempfile
import time

ROOT = pathlib.Path(__file__).resolve().parent.parent
PROGRAM = ROOT / "crates/fhpgas/out/fhpgas"
LEVEL = ROOT / "crates/fhpgas/out/level"
PROBES = ROOT / "crates/probes/out/probes"
SINGLE = [PROGRAM, "run", "--threads", "1", "--stages", "1", "--generations"]
KEY_STREAM = [PROBES, "key_stream"]
CELLS_OF_KEY_ROW = 4096 * 32
LATTICES = [
    "64x64x64000:left",
    "192x192x16000:left",
    "256x256x8000:left",
    "256x256x8000:seeded",
    "1024x1024x1500:left",
    "1024x1024x1000:seeded",
    "4096x1024x4000:left",
    "4096x1024x300:seeded",
]
C_PROGRAMS = ["bands", "bytes"]
SEED = "1"


def build(room):
    """Builds all that is measured, the C programs into a folder. Returns the level that all are built for."""
    subprocess.run(["make", "-C", ROOT], stdout=sys.stderr, check=True)
    level = LEVEL.read_text().strip()
    words = ["--cpu", level, "--", *map(str, KEY_STREAM[1:]), "0"]
    subprocess.run(["rt", "run", *words], cwd=PROBES.parents[1], stdout=sys.stderr, check=True)
    for name in C_PROGRAMS:
        words = [
            "-O3",
            "-march=" + level,
            "-pthread",
            "-o",
            room / name,
            ROOT / f"tests/program/oracles/{name}.c",
        ]
        subprocess.run(["cc", *words], check=True)
    return level


def timed(words, given, out):
    """The seconds that a command takes, its output in the file `out`."""
    with open(given) as source, open(out, "w") as sink:
        begun = time.perf_counter()
        subprocess.run(words, stdin=source, stdout=sink, check=True)
        return time.perf_counter() - begun


def told(words, given, out):
    """The seconds that a program says its generations took."""
    with open(given) as source, open(out, "w") as sink:
        ran = subprocess.run(
            words, stdin=source, stdout=sink, stderr=subprocess.PIPE, text=True, check=True
        )
    return float(ran.stderr)


def digest(path):
    return hashlib.sha256(path.read_bytes()).hexdigest()


class Bench:
    def __init__(self, room, lattice, options):
        size, _, self.chirality = lattice.partition(":")
        self.chirality = self.chirality or "left"
        self.width, self.height, self.generations = (int(word) for word in size.split("x"))
        self.room, self.options = room, options
        self.scene, self.start, self.out = room / "scene", room / "start", room / "out"
        self.scene.write_text(
            f'version = 2\ngas = "fhp1"\nchirality = "{self.chirality}"\nseed = {SEED}\nwidth = {self.width}\n'
            f"height = {self.height}\nrate = 300\n"
        )
        timed([PROGRAM, "run", "--generations", "0"], self.scene, self.start)
        self.wanted = {}
        self.seconds = collections.defaultdict(lambda: ([], []))

    def check(self, name, generations):
        found = digest(self.out)
        if self.wanted.setdefault(generations, found) != found:
            sys.exit(f"{name} prints another lattice")

    def add(self, name, whole, generations, none=0.0):
        """Counts a round: the seconds per generation of a whole run, and of one of 0 generations."""
        for kept, seconds in zip(self.seconds[name], (whole, none)):
            kept.append(seconds / generations)

    def ours(self, name, words):
        """A program whose last word is the number of generations."""
        none = timed([*words, "0"], self.scene, self.room / "none")
        whole = timed([*words, str(self.generations)], self.scene, self.out)
        self.check(name, self.generations)
        self.add(name, whole, self.generations, none)

    def seconds_of(self, name, program, generations, *words):
        """The time that a program reports for its generations, if it prints the cells that the others print."""
        seed = [SEED] if self.chirality == "seeded" else []
        seconds = told([*program, str(generations), *map(str, words), *seed], self.start, self.out)
        self.check(name, generations)
        return seconds

    def other(self, name, program, *words):
        """A program that reads and prints cells."""
        self.add(name, self.seconds_of(name, program, self.generations, *words), self.generations)

    def slower(self, name, times, program):
        """Such a program that computes fewer generations, which bands.c computes too, to compare the cells with."""
        generations = max(1, self.generations // times)
        if generations not in self.wanted:
            self.seconds_of("bands.c", [self.room / "bands"], generations, 1)
        self.add(name, self.seconds_of(name, program, generations), generations)

    def random_bits(self, name):
        rows = self.width * self.height * self.generations // CELLS_OF_KEY_ROW
        none, whole = (
            timed([*KEY_STREAM, str(count)], self.scene, self.room / "word") for count in (0, rows)
        )
        self.add(name, whole, self.generations, none)

    def round(self):
        processors = os.cpu_count() or 1
        if self.chirality == "seeded":
            self.random_bits("random bits alone")
        self.ours("one stage", SINGLE)
        self.other("C, in place, 1 thread", [self.room / "bands"], 1)
        self.other(f"C, bands, {processors} threads", [self.room / "bands"], processors)
        for capacity in self.options.capacities:
            for stages in self.options.stages:
                plan = f"N = {stages}, C = {capacity}"
                self.ours(
                    plan,
                    [
                        PROGRAM,
                        "run",
                        "--stages",
                        str(stages),
                        "--capacity",
                        str(capacity),
                        "--generations",
                    ],
                )
        for threads in self.options.threads:
            self.ours(
                f"--threads {threads}",
                [PROGRAM, "run", "--threads", str(threads), "--generations"],
            )
        self.slower("C, a byte a cell", 20, [self.room / "bytes"])
        if self.chirality == "left" and importlib.util.find_spec("numpy"):
            self.slower("numpy", 200, [sys.executable, ROOT / "bench/bytes.py"])

    def table(self):
        print(f"\n{self.width} x {self.height}, {self.chirality}, {self.generations} generations\n")
        print("| program | best | middle | ns per row, best |\n|---|---|---|---|")
        for name, (whole, none) in self.seconds.items():
            updates = [
                self.width * self.height / (of(whole) - of(none)) / 1e6
                for of in (min, statistics.median)
            ]
            print(
                f"| {name} |",
                *(f"{each:,.{0 if each >= 100 else 1}f} |" for each in updates),
                f"{self.width / updates[0] * 1e3:,.1f} |",
                flush=True,
            )


def main():
    words = argparse.ArgumentParser(
        description=__doc__, formatter_class=argparse.RawDescriptionHelpFormatter
    )
    words.add_argument("--rounds", type=int, default=3)
    numbers = lambda text: [int(word) for word in text.split(",")]
    words.add_argument("--stages", type=numbers, default=[1, 2, 3, 4, 8, 16, 32], metavar="N,N..")
    words.add_argument("--capacities", type=numbers, default=[2, 32, 128], metavar="C,C..")
    words.add_argument("--threads", type=numbers, default=[2, 4, 8], metavar="T,T..")
    words.add_argument(
        "lattices", nargs="*", default=LATTICES, metavar="WIDTHxHEIGHTxGENERATIONS[:left|seeded]"
    )
    options = words.parse_args()
    with tempfile.TemporaryDirectory() as folder:
        room = pathlib.Path(folder)
        level = build(room)
        print(f"MLUPS on {os.cpu_count()} processors, built for {level}, {options.rounds} rounds")
        for lattice in options.lattices:
            bench = Bench(room, lattice, options)
            for _ in range(options.rounds):
                bench.round()
            bench.table()


if __name__ == "__main__":
    main()
