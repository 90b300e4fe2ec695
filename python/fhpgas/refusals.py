"""Why a scene is refused: the program's line, and under it where in the text and why, by the second
reader alone (reader.py)."""
import re

from . import reader
from .scenes import Scene, scene_bytes

MOST_REASONS = 8
NOT_REFUSED = "the scene is not refused\n"
# A text, a mark or a word of a document, without blanks and comments before it: marks in a text or
# a comment do not count.
TOKEN = re.compile(
    r'(?:\s|#[^\n]*+)*+("""(?:[^\\]|\\.)*?"""|'
    r"'''.*?'''|"
    r'"(?:[^"\\\n]|\\.)*"|'
    r"'[^'\n]*'|[\[\]{}=,]|[^\s#\"'\[\]{}=,]+)",
    re.S,
)


def explained(text: bytes) -> list[tuple[str, list[str], int]]:
    """The lines that refuse the bytes of a scene, in order, with their first reasons and places,
    and how many reasons more there are. An empty list if it is not refused."""
    try:
        reader.read(text)
    except reader.Refused as refused:
        source = text.decode("utf-8-sig", errors="replace").replace("\r\n", "\n")
        found = [(str(refused), refused.reasons), *refused.later]

        def told(reasons: list) -> list[str]:
            return [position(source, path) + why for path, why in reasons[:MOST_REASONS]]

        return [(line, told(reasons), len(reasons[MOST_REASONS:])) for line, reasons in found]
    return []


def explain(scene: Scene) -> str:
    """Where and why a scene is refused: the program's line and its reasons, and then what else is
    wrong.

    Parameters
    ----------
    scene : str or path
        As in `check`.

    Returns
    -------
    str
        Lines, or `the scene is not refused`.

    Examples
    --------
    >>> print(fhpgas.explain('gas = "fhp1"\\ncells = ["04..", "0a"]'), end="")
    scene: row 1 has a wrong length
      line 2, column 18: row 1 has 2 characters, and row 0 has 4
    """
    lines: list[str] = []
    for line, reasons, more in explained(scene_bytes(scene)):
        lines.append(f"and then: {line}" if lines else line)
        lines += [f"  {reason}" for reason in reasons]
        lines += [f"  and {more} more of the kind"] if more else []
    return "\n".join(lines) + "\n" if lines else NOT_REFUSED


def position(source: str, path: tuple) -> str:
    """The line and the column of a path, from 1, as the beginning of a sentence, or "" if the key
    is not found. A path is a key, the place of an entry of its list, and for a map the place of a
    cell in its row."""
    name = re.escape(path[0]) if path else ""
    line_of = rf"""^[ \t]*(?:\[+[ \t]*)?(["']?{name}\b["']?)[ \t]*([.=\]])"""
    if not path or not (key := re.search(line_of, source, re.M)):
        return ""
    offset = key.start(1)
    if len(path) > 1 and key[2] == "=":
        offset = entry(source, key.end(), path[1]) or offset
    is_cell = path[0] == "cells" and len(path) == 3
    if is_cell and re.match(r"[\"'][^\"'\\]", source[offset : offset + 2]):
        offset += 1 + 2 * path[2]
    line, column = source.count("\n", 0, offset) + 1, offset - source.rfind("\n", 0, offset)
    return f"line {line}, column {column}: "


def entry(source: str, start: int, place: int) -> int | None:
    """Where the entry of a list at this place begins, from 0, in a document that has the list from
    `start` on."""
    depth = count = 0
    for token in TOKEN.finditer(source, start):
        if token[1] in "]}":
            depth -= 1
        elif token[1] == ",":
            count += depth == 1
        elif depth == 1 and count == place:
            return token.start(1)
        depth += token[1] in "[{"
    return None
