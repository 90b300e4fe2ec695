#!/usr/bin/env python3
"""Instructions of `fhpgas run` per row and generation, which valgrind's callgrind counts: the same on an idle and on a busy machine. 16 stages
on one thread, a lattice of 64 rows filled at rate 300, with a solid cell in each row or with none. What a run does once is taken off: of a run
of 96 generations the count of one of 32. Prints a table, which tests/plain/gauge.py compares with the one of docs/PERFORMANCE.md.

    bench/instructions.py            of the sources, by plain Rust for x86-64-v3
    bench/instructions.py PROGRAM    of a program, as `make` builds it
    bench/instructions.py --write    puts the table of the sources into docs/PERFORMANCE.md
"""

from __future__ import annotations

import argparse
import concurrent.futures
import os
import pathlib
import re
import subprocess
from collections.abc import Iterator
from dataclasses import dataclass

ROOT = pathlib.Path(__file__).resolve().parents[1]
PAGE = ROOT / "docs/PERFORMANCE.md"
LEVEL = "x86-64-v3"
WIDTHS = (64, 192, 256, 1024, 4096)
ROWS, FEW, MANY = 64, 32, 96  # both numbers of generations are whole passes of 16 stages


@dataclass(frozen=True)
class Kind:
    """The lattices of a row of the table."""

    gas: str
    chirality: str
    is_solid: bool = False
    widths: tuple[int, ...] = WIDTHS

    def __str__(self) -> str:
        return (
            f"`{self.gas}`, `{self.chirality}`, {'beside solid cells' if self.is_solid else 'free'}"
        )

    def scene(self, width: int) -> bytes:
        solid = f"solid = [[7, 0, 1, {ROWS}]]\n" if self.is_solid else ""
        return (
            f'gas = "{self.gas}"\nchirality = "{self.chirality}"\nseed = 1\nwidth = {width}\n'
            f"height = {ROWS}\nrate = 300\n{solid}"
        ).encode()


KINDS = [
    *(Kind("fhp1", bits, solid) for bits in ("left", "seeded") for solid in (False, True)),
    Kind("fhp-rest", "left", widths=(256,)),
    Kind("hpp", "left", widths=(256,)),
]


def printed(*words: str) -> str:
    return subprocess.run(words, capture_output=True, check=True, text=True).stdout


def tools() -> str:
    """What a count depends on, beside the sources."""
    rustc = printed("rustc", "--version").split()[1]
    valgrind = printed("valgrind", "--version").strip().removeprefix("valgrind-")
    return f"rustc {rustc}, {LEVEL}, valgrind {valgrind}"


def has_level() -> bool:
    return printed(str(ROOT / "tools/level")).strip() == LEVEL


def build(folder: pathlib.Path) -> pathlib.Path:
    """The program, built by plain Rust as for a release, which tests no index."""
    subprocess.run([ROOT / "plain/workspace.py", folder, "--proved", "what is counted"], check=True)
    words = "cargo build --release --quiet --package engine --bin fhpgas".split()
    environment = os.environ | {"RUSTFLAGS": f"-Ctarget-cpu={LEVEL}"}
    subprocess.run(words, cwd=folder, env=environment, check=True)
    return folder / "target/release/fhpgas"


def counted(program: pathlib.Path, scene: bytes, generations: int) -> int:
    """The instructions of a whole run."""
    words = "valgrind --tool=callgrind --callgrind-out-file=/dev/null".split()
    plan = f"run --threads 1 --stages 16 --generations {generations}".split()
    done = subprocess.run([*words, program, *plan], input=scene, capture_output=True, check=True)
    return int(re.search(rb"Collected : (\d+)", done.stderr)[1])


def counts(program: pathlib.Path) -> dict[Kind, list[int]]:
    """The instructions per row and generation at each width of each kind."""

    def count(kind: Kind, width: int) -> int:
        few, many = (counted(program, kind.scene(width), number) for number in (FEW, MANY))
        return round((many - few) / (ROWS * (MANY - FEW)))

    with concurrent.futures.ThreadPoolExecutor(os.cpu_count()) as pool:
        found = {kind: [pool.submit(count, kind, width) for width in kind.widths] for kind in KINDS}
        return {kind: [it.result() for it in each] for kind, each in found.items()}


def table(found: dict[Kind, list[int]]) -> Iterator[str]:
    yield f"| {tools()} | " + " | ".join(f"{width:,}" for width in WIDTHS) + " |"
    yield "|---" * (len(WIDTHS) + 1) + "|"
    for kind, each in found.items():
        by_width = dict(zip(kind.widths, each))
        cells = (f"{by_width[width]:,}" if width in by_width else "" for width in WIDTHS)
        yield f"| {kind} | " + " | ".join(cells) + " |"


TABLE = re.compile(r"^\| (rustc .*?) \|.*\n\|---.*\n((?:\|.*\n)+)", re.M)


def published() -> tuple[str, dict[str, list[int]]]:
    """The tools and the counts of docs/PERFORMANCE.md."""
    found = TABLE.search(PAGE.read_text())
    rows = [line.strip("| ").split(" | ", 1) for line in found[2].splitlines()]
    return found[1], {
        kind: [int(word) for word in re.findall(r"\d+", numbers.replace(",", ""))]
        for kind, numbers in rows
    }


def main() -> None:
    words = argparse.ArgumentParser(
        description=__doc__, formatter_class=argparse.RawDescriptionHelpFormatter
    )
    words.add_argument("program", nargs="?", type=pathlib.Path)
    words.add_argument("--write", action="store_true")
    options = words.parse_args()
    program = options.program or build(ROOT / "out/instructions")
    text = "\n".join(table(counts(program.absolute()))) + "\n"
    print(text, end="")
    if options.write:
        PAGE.write_text(TABLE.sub(lambda _: text, PAGE.read_text()))


if __name__ == "__main__":
    main()
