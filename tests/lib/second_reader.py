"""The lattice of a scene by docs/FORMATS.md only, slow on large ones: what `check` and `run
--generations 0` must print. The module `needs` puts the package on the path."""
import struct

import pytest
from fhpgas.reader import STATES, Refused, covering, read as keys_of

__all__ = ["Lattice", "Refused", "read"]


class Lattice:
    """A gas, a generation, and the rows of cells from the top: a state, or None for a solid cell."""

    def __init__(self, gas, generation, rows):
        self.gas, self.generation, self.rows = gas, generation, rows

    def particles(self):
        return sum(cell.bit_count() for row in self.rows for cell in row if cell)

    def check_line(self):
        solid = sum(row.count(None) for row in self.rows)
        size = f"width {len(self.rows[0])} height {len(self.rows)}"
        return f"gas {self.gas} {size} solid {solid} particles {self.particles()}\n"

    def printed(self):
        pair = lambda cell: "##" if cell is None else f"{cell:02x}" if cell else ".."
        head = f"generation {self.generation} particles {self.particles()}"
        return "\n".join([head, *("".join(map(pair, row)) for row in self.rows), ""])


def read(text, most_cells):
    """The lattice of the bytes of a text, None for an area of more cells than that, or the first refusal as a Refused."""
    table = keys_of(text)
    if "cells" not in table and table["width"] * table["height"] > most_cells:
        return None
    rows = map_rows(table) if "cells" in table else area_rows(table)
    return Lattice(table["gas"], table.get("generation", 0), rows)


def map_rows(table):
    pairs = ([row[at : at + 2] for at in range(0, len(row), 2)] for row in table["cells"])
    return [
        [None if pair == "##" else 0 if pair == ".." else int(pair, 16) for pair in row]
        for row in pairs
    ]


def area_rows(table):
    width, height, solid = table["width"], table["height"], table.get("solid", [])
    cell = lambda x, y: 0 if covering(solid, x, y) is None else None
    rows = [[cell(x, y) for x in range(width)] for y in range(height)]
    for direction in range(STATES[table["gas"]].bit_length() - 1 if table.get("rate") else 0):
        words = iter(key_words(table.get("seed", 0), 2**63 + direction, width * height))
        for row in rows:
            row[:] = [
                cell if word % 1000 >= table["rate"] or cell is None else cell | 1 << direction
                for cell, word in zip(row, words)
            ]
    for x, y, state in table.get("particles", []):
        rows[y][x] = state
    return rows


def key_words(seed, stream, count):
    """The first words of a stream of a seed's key stream. What OpenSSL takes for the place is the block and the stream, of 64 bits each."""
    ciphers = pytest.importorskip("cryptography.hazmat.primitives.ciphers")
    key, place = seed.to_bytes(8, "little") + bytes(24), bytes(8) + stream.to_bytes(8, "little")
    cipher = ciphers.Cipher(ciphers.algorithms.ChaCha20(key, place), None)
    return struct.unpack(f"<{count}I", cipher.encryptor().update(bytes(4 * count)))
