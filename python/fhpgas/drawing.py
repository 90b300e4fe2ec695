"""Scenes from words: blocks, discs, polygons, a picture, a nozzle or a porous medium in a channel
that is filled at random.

    python3 -m fhpgas draw blocks --block 8 2 3 4 > plate.toml
    python3 -m fhpgas draw discs --width 512 --height 256 --disc 128 128 20 --wind 0.2 > wake.toml
    python3 -m fhpgas draw bitmap letter.pbm --pixel 16 --at 250 190 --width 1536 --height 512
    python3 -m fhpgas draw porous --share 0.3 --radius 2 --seed 5 > porous.toml

A cell is named by its column and row from 0 at the top left. A filling is the chance that a
direction of a cell has a particle, and speeds are in cells' widths per generation. The same words
draw the same scene. Without a wind and patches it is an area, which the program fills, and any size
fits. With them it is a map, drawn from the equilibrium, of at most about 33 million cells, and a
sweep over seeds draws it again per seed."""
import argparse
from typing import Any

import fhpgas

from .fault import Fault, Usage
from .gas_table import CHIRALITIES, GASES
from .limits import MOST_BYTES, MOST_SEED, MOST_SIDE, map_bytes
from .scenes import text_of
from .words import add_words, number, repeated, whole, word

PLACE, SIDE = whole(0, MOST_SIDE), whole(1, MOST_SIDE)
CORNER = number(-2 * MOST_SIDE, 2 * MOST_SIDE)
ABOUT_WIND = "the mean velocity of the particles, eastwards, and northwards as a second number"
WORDS = {
    "--gas": word(default="fhp1", choices=GASES),
    "--chirality": word(default="seeded", choices=CHIRALITIES),
    "--seed": word("of the scene and of all that is drawn; default 0", whole(0, MOST_SEED)),
    "--width": word("1 to 65536", SIDE, 64, metavar="COLUMNS"),
    "--height": word("1 to 65536", SIDE, 24, metavar="ROWS"),
    "--filling": word("the chance per direction, 0 to 1", number(0, 1), 0.2),
    "--patch": repeated("fill a rectangle otherwise", number(0, MOST_SIDE), *"XYWH", "FILLING"),
    "--wind": word(ABOUT_WIND, number(-1, 1), (0.0,), nargs="+", metavar="SPEED"),
    "--closed": {"action": "store_true", "help": "a solid first column: nothing passes the ends"},
    "--block": repeated("a solid rectangle", PLACE, *"XYWH"),
}
ABOUT_DISCS = "middle (column, row) and radius in cells' widths; is periodic, and cut at the walls"
CORNERS = word("the corners; may be repeated", CORNER, nargs="+", action="append", metavar="X Y")
WORDS_OF_SHAPES: dict[str, dict[str, Any]] = {
    "--disc": repeated(ABOUT_DISCS, PLACE, "X", "Y", "RADIUS"),
    "--polygon": CORNERS | {"default": []},
    "picture": word("a PBM or PNG file, or another that Pillow reads", metavar="PICTURE"),
    "--pixel": word("of a pixel in cells' widths", number(0.01, MOST_SIDE), 1, metavar="WIDTH"),
    "--at": word("the cell of its upper left", PLACE, (0, 0), nargs=2, metavar=("X", "Y")),
    "--throat": word("open rows of the narrowest column", PLACE, 6, metavar="ROWS"),
    "--length": word("from full to full height", PLACE, 40, metavar="COLUMNS"),
    "--share": word("of all cells that are solid, at least", number(0, 1), 0.3),
    "--radius": word("of each disc", PLACE, 2),
}
SHAPES = {  # what each is, and its words beside the ones of all
    "blocks": ("rectangles", ""),
    "discs": ("discs, round as the lattice lies", "--disc"),
    "polygons": ("polygons", "--polygon"),
    "bitmap": ("the dark pixels of a picture", "picture --pixel --at"),
    "nozzle": ("the channel narrows to a throat and widens again", "--throat --length"),
    "porous": ("discs at random places, until a share of cells is solid", "--share --radius"),
}


def add_shapes(reader: argparse.ArgumentParser) -> None:
    """The words that draw a scene."""
    kinds = reader.add_subparsers(dest="shape", required=True, metavar="SHAPE")
    for name, (about, more) in SHAPES.items():
        own = {word: WORDS_OF_SHAPES[word] for word in more.split()}
        add_words(kinds.add_parser(name, help=about), WORDS | own)


def drawn(asked: argparse.Namespace, seed: int | None = None) -> str:
    """The scene of the words that were read, and of a seed if one is passed too."""
    if seed is not None and asked.seed is not None:
        raise Usage("the words that draw have a --seed, and a seed is given beside them")
    seed, size = seed or asked.seed or 0, fhpgas.Size(asked.width, asked.height)
    blocks = [*asked.block, *([[0, 0, 1, asked.height]] if asked.closed else [])]
    for block in blocks:
        fhpgas.shapes.check_inside("a block", block, size)
    solid, thousandths = shape(asked, size, seed), 1000 * asked.filling
    if any(asked.wind) or asked.patch or abs(thousandths - round(thousandths)) > 1e-9:
        return windy(asked, size, seed, blocks, solid)
    keys = {"version": 2} if max(size) > 4096 else {}
    keys |= {"gas": asked.gas, "chirality": asked.chirality, "seed": seed}
    keys |= {"width": asked.width, "height": asked.height, "rate": round(thousandths)}
    blocks += [] if solid is None else fhpgas.shapes.rectangles(solid)
    return text_of(keys | ({"solid": blocks} if blocks else {}))


def shape(asked: argparse.Namespace, size: Any, seed: int) -> Any:
    """The solid cells [y, x] of the shapes that were asked for beside blocks, None if there are
    none."""
    if asked.shape == "bitmap":
        column, row = asked.at
        return fhpgas.bitmap(size, asked.picture, asked.pixel, column, row, asked.gas)
    if asked.shape == "nozzle":
        return fhpgas.nozzle(size, asked.throat, asked.length)
    if asked.shape == "porous":
        return fhpgas.porous(size, asked.share, asked.radius, seed, asked.gas)
    discs, polygons = getattr(asked, "disc", ()), getattr(asked, "polygon", ())
    many = [fhpgas.disc(size, x, y, radius, asked.gas) for x, y, radius in discs]
    for numbers in polygons:
        if len(numbers) % 2:
            raise Usage(f"a polygon has corners of two numbers each, and these are {len(numbers)}")
        many.append(fhpgas.polygon(size, [*zip(numbers[::2], numbers[1::2])], asked.gas))
    return sum(many[1:], many[0]) if many else None


def windy(
    asked: argparse.Namespace, size: Any, seed: int, blocks: list[list[int]], solid: Any
) -> str:
    """A map with a wind, the patches at their fillings."""
    import numpy as np

    if len(asked.wind) > 2:
        raise Usage("a wind has a speed eastwards and one northwards")
    if map_bytes(*size) > MOST_BYTES:
        why = f"longer than the {MOST_BYTES} bytes that the program reads"
        raise Fault(f"a wind makes a map, and this one would be {why}")
    filling = np.full(size.shape, asked.filling)
    walls = np.zeros(size.shape, bool) if solid is None else solid
    for x, y, w, h in blocks:
        walls[y : y + h, x : x + w] = True
    for *patch, chance in asked.patch:
        x, y, w, h = map(int, patch)
        fhpgas.shapes.check_inside("a patch", (x, y, w, h), size)
        if [x, y, w, h] != patch or chance > 1:
            given = " ".join(f"{n:g}" for n in (*patch, chance))
            raise Usage(f"a patch is whole columns and rows and a filling of 0 to 1, not {given}")
        filling[y : y + h, x : x + w] = chance
    drawn, known = filling if asked.patch else asked.filling, {"size": size, "solid": walls}
    known |= {"gas": asked.gas, "chirality": asked.chirality, "seed": seed}
    return fhpgas.draw_gas(drawn, *asked.wind, **known).scene()
