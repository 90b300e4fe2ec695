"""The texts of scenes: where they come from, what they say, and what the program says of them. It
needs the standard library only."""
import contextlib
import functools
import json
import operator
import os
import re
import tomllib
from collections.abc import Iterator
from typing import Any, NamedTuple

from .fault import Fault, seed_of
from .files import Path, read_bytes
from .program import call

HEIGHT = re.compile(rb"^[ \t]*height[ \t]*=[ \t]*(\d+)", re.M)
# The key of a map, without comments.
ROWS = re.compile(r"^[ \t]*cells[ \t]*=[ \t]*\[[^\]#]*(?:##[^\]#]*)*\]", re.M)
Scene = Path  # the text of a scene, or a path


def _is_text(scene: Scene) -> bool:
    return isinstance(scene, str) and (not scene or "\n" in scene)


def scene_bytes(scene: Scene) -> bytes:
    """The bytes of a scene that is passed as its text or as a path. A str is a text if it is
    empty or contains a line feed, as every scene does. "-" is standard input."""
    if isinstance(scene, str) and _is_text(scene):
        return scene.encode()
    if not isinstance(scene, (str, os.PathLike)):
        kind = type(scene).__name__
        raise Fault(f"a scene is passed as its text or as the path of its file, not as {kind}")
    return read_bytes(scene)


@contextlib.contextmanager
def naming(scene: Scene) -> Iterator[None]:
    """Lets a Fault in the block begin with the path of the scene, if it has one."""
    try:
        yield
    except Fault as fault:
        if _is_text(scene) or str(scene) == "-":
            raise
        raise Fault(f"{scene}: {fault}") from None


class Summary(NamedTuple):
    """What `check` says of a scene: its gas, its columns and rows, and the numbers of its solid
    cells and of its particles."""

    gas: str
    width: int
    height: int
    solid: int
    particles: int


def check(scene: Scene) -> Summary:
    """The summary of a scene.

    Parameters
    ----------
    scene : str or path
        The path of a file, or the text of a scene, which has a line feed.

    Returns
    -------
    Summary

    Raises
    ------
    Fault
        If the scene is refused, with the program's line.

    Examples
    --------
    >>> fhpgas.check('gas = "hpp"\\ncells = ["01##"]')
    Summary(gas='hpp', width=2, height=1, solid=1, particles=1)
    """
    read = scene_bytes(scene)
    with naming(scene):
        return summary(read)


def summary(scene: bytes) -> Summary:
    """The summary of the bytes of a scene."""
    words = call(scene, "check").decode().split()
    return Summary(words[1], *map(int, words[3::2]))


def keys_of(scene: bytes) -> dict[str, Any]:
    """The keys and values of a scene that the program takes, without the rows of a map, which
    Python would read character by character."""
    text, why = scene.decode("utf-8-sig"), None
    for cut in ROWS.sub("", text), text:
        try:
            return tomllib.loads(cut)
        except tomllib.TOMLDecodeError as fault:
            why = fault
    raise Fault(f"the scene is TOML 1.1, and Python reads 1.0: {why}")


def text_of(keys: dict[str, Any]) -> str:
    """The scene of a dictionary of keys and values, texts, integers (also numpy's) and lists of
    them, with a line per entry of a list."""
    toml = functools.partial(json.dumps, ensure_ascii=False, default=operator.index)
    lines: list[str] = []
    for key, value in keys.items():
        if isinstance(value, (list, tuple)):
            lines += [f"{key} = [", *(f"    {toml(entry)}," for entry in value), "]"]
        else:
            lines.append(f"{key} = {toml(value)}")
    return "\n".join(lines) + "\n"


def with_seed(scene: Scene, seed: int) -> str:
    """The text of an area with another seed, and so with another filling.

    Parameters
    ----------
    scene : str or path
        As in `check`.
    seed : int
        0 to 2^63 - 1.

    Returns
    -------
    str

    Raises
    ------
    Fault
        If the start would be the same, in part or as a whole: of a map, of an area with
        `particles`, and of one with rate 0.

    Examples
    --------
    >>> area = 'gas = "fhp1"\\nwidth = 64\\nheight = 36\\nrate = 200\\n'
    >>> "seed = 5" in fhpgas.with_seed(area, 5)
    True
    """
    read = scene_bytes(scene)
    with naming(scene):
        call(read, "check")
        keys = keys_of(read)
    if kept := "cells" if "width" not in keys else "particles" if keys.get("particles") else "":
        way = "draw the scene again, by `fhpgas.draw_gas(.., seed=..)` or `over-seeds --drawn`"
        raise Fault(f"another seed would leave `{kept}` as they are: {way}")
    if not keys.get("rate"):
        why = "`rate` is 0, so nothing is filled at random"
        raise Fault(f"another seed would change nothing: {why}")
    return text_of(keys | {"seed": seed_of(seed)})


def height_of(scene: bytes) -> int:
    """About how many rows a scene has, for a plan: of a map the lines are counted."""
    found = HEIGHT.search(scene[:10_000])
    return int(found[1]) if found else scene.count(b"\n")
