"""Checks the twenty scenes of scenes/reference: the built program must print cells with the recorded
SHA-256 after the recorded generations. The C program of one byte a cell made the record."""

import hashlib

import needs
import pytest

FOLDER = needs.ROOT / "scenes/reference"
RECORD = [line.split() for line in (FOLDER / "SHA256").read_text().splitlines()]


@pytest.mark.parametrize("recorded, generations, name", RECORD, ids=lambda it: it[:20])
def test_program(program, recorded, generations, name):
    words = [program, "run", "--generations", generations]
    printed = needs.printed(words, (FOLDER / name).read_bytes())
    assert hashlib.sha256(printed).hexdigest() == recorded


def test_each_of_twenty_scenes_has_a_record():
    assert len([*FOLDER.glob("*.toml")]) == len(RECORD) == 20
