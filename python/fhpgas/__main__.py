"""Lattice gases at the command line: draws scenes, pictures and films, explains refusals, runs
scenes over seeds, over time and in parts.

SCENE is the file of a scene, and SOURCE one of a scene, of cells that `fhpgas run` printed, or of a
table of `fhpgas coarse`: - is standard input. A fault is one line on standard error. The status is
2 if the words are wrong, and else 1."""
from __future__ import annotations

import argparse
import functools
import importlib.util
import inspect
import io
import math
import os
import pathlib
import sys
import time
import warnings
import webbrowser
from collections.abc import Callable
from typing import Any, NoReturn, get_args

import fhpgas

from . import drawing
from .fault import Fault, Usage, library
from .files import is_npz, read_bytes, write_whole
from .gas_table import GASES
from .limits import DRIVES, FFMPEG, LAST_OF_SCENE, MOST_GENERATIONS, MOST_SEED, PILLOW, Quantity
from .refusals import NOT_REFUSED
from .scenes import naming
from .words import Parser, add_words, number, one_line_faults, to_write, whole, word

FIGURES, FILMS = (".png", ".svg", ".pdf"), PILLOW + FFMPEG
UNITS = ("days", 86400), ("hours", 3600), ("minutes", 60), ("seconds", 1)


def text(found: bytes) -> str:
    """The text of a scene. It has a line feed, so it is never taken for a path."""
    read = found.decode(errors="replace")
    return read if "\n" in read else read + "\n"


def often(scene: pathlib.Path | None) -> pathlib.Path | str:
    """A scene that can be read often: its path, or the text that standard input had."""
    return scene if scene and str(scene) != "-" else text(read_bytes("-"))


def source(path: str, asked: argparse.Namespace) -> fhpgas.Lattice | fhpgas.Blocks:
    """What a file has: a scene or what `save` wrote, or cells or a table, which do not name their
    gas and the sizes of the lattice and of the blocks."""
    found = read_bytes(path)
    if is_npz(found):
        from .forms import from_npz

        with naming(path):
            return from_npz(fhpgas.Lattice if b"states.npy" in found else fhpgas.Blocks, found)
    is_table = found.startswith(b"  col ")
    if not is_table and not found.startswith(b"generation "):
        with naming(path):
            return fhpgas.Lattice.load(text(found))
    if asked.scene is None and None in (asked.gas, asked.size):
        ways = "--scene SCENE, or --gas GAS and --size COLUMNS ROWS"
        raise Usage(f"{path} does not name its gas and its size: {ways}")
    if is_table and asked.block is None:
        raise Usage(f"{path} does not name the size of its blocks: --block COLUMNS ROWS")
    gas, columns, rows = fhpgas.check(asked.scene)[:3] if asked.scene else (asked.gas, *asked.size)
    with naming(path):
        if is_table:
            return fhpgas.read_table(found, gas, asked.block, fhpgas.Size(columns, rows))
        return fhpgas.read_cells(found, gas, fhpgas.Size(columns, rows))


def shows() -> bool:
    """Whether a command shows its progress: on a terminal that is not dumb, if tqdm is there."""
    moves = sys.stderr.isatty() and os.environ.get("TERM") != "dumb"
    return moves and bool(importlib.util.find_spec("tqdm"))


def steps(last: int, step: int) -> int:
    """How many steps of so many generations there are to the last one."""
    if last % step:
        raise Usage(f"{last} generations are no multiple of {step}, those of a step")
    return last // step


def draw(asked: argparse.Namespace) -> None:
    """Draws a scene."""
    print(drawing.drawn(asked), end="")


def explain(asked: argparse.Namespace) -> None:
    """Says where and why a scene is refused."""
    told = fhpgas.explain(asked.scene)
    print(told, end="")
    if told != NOT_REFUSED:
        sys.exit(1)


def given(**words: Any) -> dict[str, Any]:
    """The words that have a value."""
    return {name: value for name, value in words.items() if value is not None}


def looks(asked: argparse.Namespace) -> dict[str, Any]:
    """The options of a picture."""
    if asked.low is not None and asked.high is not None and asked.low >= asked.high:
        raise Usage(f"--low {asked.low:g} is not below --high {asked.high:g}")
    limits = given(vmin=asked.low, vmax=asked.high)
    return {"block": asked.block or (8, 9), "smooth": asked.smooth} | limits


def picture(asked: argparse.Namespace) -> None:
    """Makes a figure of a scene, of cells or of a table, or of several. These are a strip, or if
    the file is .gif, .webp, .apng or .mp4 a film."""
    from .pictures import axes_of

    options = looks(asked)
    os.environ["MPLBACKEND"] = "agg"  # no window, whatever the screen
    sources = [source(path, asked) for path in asked.sources]
    if asked.file.endswith(FILMS):
        return fhpgas.film(asked.file, sources, asked.what, dpi=asked.dpi, **options)
    if len(sources) > 1:
        figure = fhpgas.strip(sources, asked.what, **options)
    else:
        figure = sources[0].plot(asked.what, axes_of(sources[0]), **options).figure
    figure.savefig(made := io.BytesIO(), format=asked.file.rpartition(".")[2], dpi=asked.dpi)
    write_whole(asked.file, made.getvalue())
    if images := [ax.images[0].get_array() for ax in figure.axes if ax.images and ax.get_xlabel()]:
        least, most = min(it.min() for it in images), max(it.max() for it in images)
        print(f"{asked.what} from {least:.4g} to {most:.4g}")


def film(asked: argparse.Namespace) -> None:
    """Runs a scene and writes a film. It shows every so many generations, from the start on. A flow
    is kept at each frame by flipping particles."""
    count, options = steps(asked.until, asked.every), looks(asked)
    how = given(force=asked.force, flow=asked.flow)
    if len(how) > 1:
        raise Usage("a flow is driven by a force or towards a mean flow: --force or --flow")
    start = fhpgas.Lattice.load(asked.scene)
    frames = start.every(asked.every, count, progress=shows())
    if how:
        how |= {"along": asked.along, "seed": asked.seed}
        driven = start.driven(asked.until, asked.every, **how, progress=shows())
        frames = (point.before for point in driven)
    fhpgas.film(asked.file, frames, asked.what, fps=asked.fps, dpi=asked.dpi, **options)
    first, last = start.generation, start.generation + asked.until
    print(f"{asked.file}: {count + 1} frames, generations {first} to {last}")


def how_long(asked: argparse.Namespace) -> None:
    """Says how long a run will take. It times a few short runs with the same plan, and scales. On a
    busy machine the figure changes every minute."""
    scene = often(asked.scene)
    size = fhpgas.check(scene)
    stages, capacity, threads = fhpgas.plan(size.height, asked.generations, stages=asked.stages)
    capacity = asked.capacity or capacity

    def timed(generations: int) -> float:
        begun = time.perf_counter()
        fhpgas.coarse(scene, generations, 4096, 4096, stages=stages, capacity=capacity)
        return time.perf_counter() - begun

    around, many = min(timed(0), timed(0)), stages
    while (seconds := timed(many) - around) < asked.seconds and 10 * many <= MOST_GENERATIONS:
        many *= max(2, min(10, int(asked.seconds / max(seconds, 1e-6))))
    of_one = max(seconds, 1e-6) / many
    cells, whole_run = size.width * size.height, around + asked.generations * of_one
    unit, length = next((pair for pair in UNITS if whole_run >= 2 * pair[1]), UNITS[-1])
    speed = cells / of_one / 1e6
    mlups = f"{speed:,.0f}" if speed > 10 else f"{speed:.2g}"
    workers = f"{stages} worker{'s' * (stages > 1)} on {threads} thread{'s' * (threads > 1)}"
    print(f"{mlups} MLUPS with {workers} and {capacity} rows per belt")
    about = f"about {whole_run / length:.2g} {unit}"
    print(f"{asked.generations} generations of {cells} cells: {about}")


def resume(asked: argparse.Namespace) -> None:
    """Prints the scene that continues a run from printed cells."""
    print(fhpgas.Lattice.load(asked.scene).resume(read_bytes(asked.cells)).scene(), end="")


def long_run(asked: argparse.Namespace) -> None:
    """Runs in parts, each kept in a file. The same command continues an ended run."""
    files = asked.scene, pathlib.Path(asked.kept)
    if all(map(os.path.exists, files)) and os.path.samefile(*files):
        raise Usage(f"{asked.kept} is the scene itself, which the run would overwrite")
    start, later = fhpgas.Lattice.load(asked.scene), None
    for later in start.long_run(asked.generations, asked.step, asked.kept, progress=shows()):
        print(f"generation {later.generation} particles {later.particles}", flush=True)
    if later is None:
        kept = fhpgas.Lattice.load(pathlib.Path(asked.kept))
        print(f"{asked.kept} has generation {kept.generation}, so there was nothing to run")


def over_time(asked: argparse.Namespace) -> None:
    """Prints tables every STEP generations up to LAST."""
    start = fhpgas.Lattice.load(asked.scene)
    if asked.last < start.generation:
        raise Usage(f"{asked.scene} has generation {start.generation}, which is past {asked.last}")
    count = steps(asked.last - start.generation, asked.step)
    for later in start.every(asked.step, count, progress=shows()):
        print(f"generation {later.generation} particles {later.particles}")
        print(later.blocks(*asked.block or (8, 9)).text(), end="", flush=True)


def drive(asked: argparse.Namespace) -> None:
    """Runs a scene under a force or towards a mean flow. Particles flip from west to east between
    short runs. Prints how fast the gas flows and which force acts until the next point."""
    steps(asked.generations, asked.every)
    if (asked.flow is None) == (asked.force is None):
        raise Usage("a flow is driven either by a force or towards a mean flow: --force or --flow")
    how = {name: getattr(asked, name) for name in ("force", "flow", "along", "seed")}
    start = fhpgas.Lattice.load(asked.scene)
    points = start.driven(asked.generations, asked.every, **how, progress=shows())
    for done, point in enumerate(points):
        print("generation    velocity       force\n" * (done == 0), end="")
        told = f"{point.before.generation:10} {point.velocity:11.5f} {point.force:11.3g}"
        print(told, flush=True)


def over_seeds(asked: argparse.Namespace) -> None:
    """Prints the mean over seeds of a table of an area, with standard errors."""
    if asked.drawn is None:
        scene = often(asked.scene)
    else:
        words = Parser("--drawn")
        drawing.add_shapes(words)
        drawn = words.parse_args(asked.drawn)

    def columns(seed: int) -> Any:
        area = fhpgas.with_seed(scene, seed) if asked.drawn is None else drawing.drawn(drawn, seed)
        blocks = fhpgas.coarse(area, asked.generations, *asked.block or (8, 9))
        return [blocks.fluid, blocks.particles, *blocks.velocity]

    found = fhpgas.side_by_side(columns, range(1, asked.seeds + 1), progress=shows())
    means, errors = (part.transpose(1, 2, 0).tolist() for part in fhpgas.mean_and_error(found))
    names = "".join(f"{name:>12}{name + '_error':>16}" for name in ("particles", "u", "v"))
    print("  col   row    fluid" + names)
    for y, line in enumerate(means):
        for x, (fluid, *rest) in enumerate(line):
            pairs = ("%12.5g%16.2g" % pair for pair in zip(rest, errors[y][x][1:]))
            print(f"{x:5} {y:5} {fluid:8.1f}" + "".join(pairs).replace("nan", "  -"))


def page(asked: argparse.Namespace) -> None:
    """Opens a page on which a gas moves, and prints its path."""
    # of a wheel, which has the page, or of the repository
    own = pathlib.Path(__file__).resolve().parent
    path = (own if (own / "page").exists() else own.parents[1]) / "page/fhpgas.html"
    print(path, flush=True)
    if not asked.no_browser:
        webbrowser.open(path.as_uri())


def numbers(asked: argparse.Namespace) -> None:
    """Prints Mach and Reynolds number of a flow, and the rest."""
    named: Any = asked.gas or "fhp1"
    flow = {"filling": asked.filling, "speed": asked.speed}
    if [value is None for value in flow.values()] != [asked.table is not None] * 2:
        raise Usage("a flow has --filling and --speed, or a --table")
    if asked.table is not None:
        found = source(asked.table, asked)
        blocks = found if isinstance(found, fhpgas.Blocks) else found.blocks()
        named, particles = blocks.gas, blocks.particles.sum()
        if not particles:
            raise Fault(f"{asked.table} has no particle, so no flow")
        x, y = blocks.gas.units * (blocks.px.sum(), blocks.py.sum()) / particles
        filling = particles / blocks.gas.directions / blocks.fluid.sum()
        flow = {"filling": filling, "speed": math.hypot(x, y)}
    told = fhpgas.numbers(named, **flow, length=asked.length, chirality=asked.chirality)._asdict()
    if told["mach"] > 1:
        warnings.warn("the flow is faster than sound, for which no formula here is made")
    for name, value in (flow | told if asked.table else told).items():
        print(f"{name.replace('_', ' '):16}{value:12.4g}")


FIELDS_OF: dict[str, Any] = {"choices": get_args(Quantity)}
SCENE = word(kind=pathlib.Path, metavar="SCENE")
SIDES: dict[str, Any] = {"nargs": 2, "metavar": ("COLUMNS", "ROWS")}
FINITE, MANY = number(-1e300, 1e300), whole(0, LAST_OF_SCENE)
STEP, COUNT = whole(1, MOST_GENERATIONS), whole(0, MOST_GENERATIONS)
WORDS: dict[str, dict[str, Any]] = {
    "scene": SCENE,
    "scene:optional": SCENE | {"nargs": "?"},
    "sources": word(metavar="SOURCE", nargs="+"),
    "cells": word(metavar="CELLS"),
    "kept": word("the file, .npz or .toml", metavar="KEPT"),
    "file:picture": word(", ".join(FIGURES + FILMS), to_write(*FIGURES, *FILMS), metavar="FILE"),
    "file:film": word(", ".join(FILMS), to_write(*FILMS), metavar="FILE"),
    "what": word(**FIELDS_OF),
    "generations": word(kind=MANY, metavar="GENERATIONS"),
    "last": word("the last generation", MANY, metavar="LAST"),
    "step": word(kind=STEP, metavar="STEP"),
    "every": word(kind=STEP, metavar="EVERY"),
    "--along": word("flips W to E, or NW to NE and SW to SE too", str, "rows", choices=DRIVES),
    "--block": word("of a block; default 8 9, but a table needs its own", whole(1, 4096), **SIDES),
    "--capacity": word("rows per belt", whole(1, 1024)),
    "--chirality": drawing.WORDS["--chirality"],
    "--dpi": word("dots per inch", whole(10, 1000), 100),
    "--drawn": word("words of `draw` to the end of the line", nargs="...", metavar="WORD"),
    "--every": word("generations from frame to frame", STEP, required=True, metavar="STEP"),
    "--filling": word("the chance per direction", number(1e-4, 0.9999)),
    "--flow": word("mean velocity", number(-1, 1)),
    "--force": word("momentum per fluid cell and generation", number(-2, 2)),
    "--fps": word("frames per second", number(0.1, 100), 10),
    "--gas": word(choices=GASES),
    "--generations": word(kind=COUNT, required=True, metavar="GENERATIONS"),
    "--high": word("the value of the last colour", FINITE),
    "--length": word("in cells' widths", number(1e-3, 1e9), required=True),
    "--low": word("the value of the first colour", FINITE),
    "--no-browser": {"action": "store_true", "help": "only print the path"},
    "--scene": SCENE | {"help": "the scene of the run, for its gas and its size"},
    "--seconds": word("the least that is timed", whole(1, 3600), 2),
    "--seed": word("of the particles that are flipped", whole(0, MOST_SEED), 0),
    "--seeds": word(kind=whole(2, 10**6), default=8),
    "--size": word("of the lattice", whole(1, 65536), **SIDES),
    "--smooth": word("width of a Gaussian in blocks", number(0, 100), 0, metavar="BLOCKS"),
    "--speed": word("in cells' widths per generation", number(0, 1)),
    "--stages": word("workers", whole(1, 64)),
    "--table": word("for its filling and mean speed", metavar="SOURCE"),
    "--until": word("generations in all", COUNT, required=True, metavar="GENERATIONS"),
    "--what": word("default speed, or particles if the lattice is small", **FIELDS_OF),
}
LOOKS, DRIVE = "--block --low --high --smooth --dpi", "--force --flow --along --seed"
COMMANDS: dict[Callable[[argparse.Namespace], None], str] = {
    draw: "",
    explain: "scene",
    picture: f"what file:picture sources --scene --gas --size {LOOKS}",
    film: f"scene file:film --every --until --what {LOOKS} --fps {DRIVE}",
    page: "--no-browser",
    how_long: "scene generations --stages --capacity --seconds",
    resume: "scene cells",
    long_run: "scene generations step kept",
    drive: f"scene generations every {DRIVE}",
    over_time: "scene last step --block",
    over_seeds: "scene:optional --seeds --generations --block --drawn",
    numbers: "--filling --speed --length --chirality --gas --table --scene --size --block",
}


class Version(argparse.Action):
    """Prints the version, and what engine and program are."""

    def __call__(self, parser: argparse.ArgumentParser, *_: Any) -> NoReturn:
        told = {"fhpgas-tools": fhpgas.__version__} | fhpgas.build()
        print(*(f"{name} {what}" for name, what in told.items()), sep="\n")
        parser.exit()


def reader(name: str) -> Parser:
    top = Parser(name, description=__doc__)
    top.add_argument("--version", action=Version, nargs=0, help="show what this is and exit")
    commands = top.add_subparsers(required=True, metavar="COMMAND")
    for function, words in COMMANDS.items():
        about = inspect.getdoc(function) or ""
        name = function.__name__.replace("_", "-")
        made = commands.add_parser(name, help=about.split(".")[0], description=about)
        made.set_defaults(function=function)
        add_words(made, {word: WORDS[word] for word in words.split()})
        if function is draw:
            made.description = drawing.__doc__
            drawing.add_shapes(made)
    return top


def main(words: list[str] | None = None) -> None:
    name = pathlib.Path(sys.argv[0]).name
    with one_line_faults("fhpgas-tools"), warnings.catch_warnings():
        told = functools.partial(print, "fhpgas-tools:", file=sys.stderr)
        warnings.showwarning = lambda message, *_: told(message)
        asked = reader("python3 -m fhpgas" if name == "__main__.py" else name).parse_args(words)
        try:
            if asked.function is not explain:
                library("numpy")
            asked.function(asked)
        except OSError as fault:
            if fault.filename is None:  # of standard output
                raise
            raise Fault(f"{fault.filename}: {fault.strerror}") from None


if __name__ == "__main__":
    main()
