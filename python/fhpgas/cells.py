"""The cells of a lattice as bytes, and as the lines that `fhpgas run` prints, with two characters
per cell."""
import re
from typing import Any

import numpy as np

from .arrays import Mask, States
from .fault import Fault

SOLID = 0x80  # in a byte per cell: a solid cell. Any other cell's byte is its state
NO_CELL = 0xFF
TEXTS = [b"##" if code & SOLID else b"%02x" % code if code else b".." for code in range(256)]
PAIRS = np.array(TEXTS, "S2").view("<u2")  # the characters of a byte
CODES = np.full(1 << 16, NO_CELL, np.uint8)  # the byte of two characters
CODES[PAIRS[: SOLID + 1]] = range(SOLID + 1)
CODES[ord("0") * 257] = 0
NUMBER = np.array([(code & SOLID - 1).bit_count() for code in range(256)], np.uint8)  # of particles


def codes_of(states: States, solid: Mask) -> States:
    """The bytes of cells with these states, which are 0 where a cell is solid."""
    return states | solid.view(np.uint8) << np.uint8(7)


def parts_of(codes: States) -> tuple[States, Mask]:
    """The states and the solid cells of bytes."""
    return codes & np.uint8(SOLID - 1), (codes >> np.uint8(7)).view(bool)


def lines_of(codes: States, before: bytes = b"", after: bytes = b"\n") -> bytes:
    """The rows of cells, a byte each, as lines of text with two characters per cell."""
    rows, columns = codes.shape
    lines = np.empty((rows, len(before) + 2 * columns + len(after)), np.uint8)
    lines[:, : len(before)] = np.frombuffer(before, np.uint8)
    lines[:, len(before) + 2 * columns :] = np.frombuffer(after, np.uint8)
    lines[:, len(before) : len(before) + 2 * columns] = PAIRS[codes].view(np.uint8)
    return lines.tobytes()


def cells_of(printed: str | bytes, size: tuple[int, int] | None = None) -> dict[str, Any]:
    """The states, the solid cells and the generation of a text that `fhpgas run` printed, of
    columns and rows if they are known. A text that is not whole raises a Fault."""
    text = printed.encode() if isinstance(printed, str) else printed
    head = re.match(rb"generation (\d+) particles (\d+)\n([^\n]+\n)", text)
    width = len(head[3]) if head else 0
    if not head or width % 2 == 0 or (len(text) - head.start(3)) % width:
        why = "they begin with `generation g particles c`, and then have rows of one length"
        raise Fault(f"these are no printed cells, or not all: {why}")
    lines = np.frombuffer(text, np.uint8, offset=head.start(3)).reshape(-1, width)
    codes = CODES[lines[:, :-1].view("<u2")]
    if (wrong := (codes == NO_CELL) | (lines[:, -1:] != ord("\n"))).any():
        raise Fault(
            f"these are no printed cells: row {np.argwhere(wrong)[0][0]} has something else"
        )
    if size is not None and codes.shape != size[::-1]:
        found = f"{codes.shape[1]} x {codes.shape[0]} (columns x rows)"
        raise Fault(f"the cells are {found}, and not {size[0]} x {size[1]}")
    if (particles := int(NUMBER[codes].sum())) != int(head[2]):
        raise Fault(f"the cells contain {particles} particles, and not {int(head[2])} as they say")
    states, solid = parts_of(codes)
    return {"states": states, "solid": solid, "generation": int(head[1])}
