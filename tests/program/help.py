"""Compares what the program's help states of units and limits with docs/FORMATS.md: the ranges and
defaults of the options with its table, and other lines with the words and numbers that a pair below
has for both. A line of help that has a number, a unit or a limit and is compared with nothing fails."""

import re

import needs
import pytest

FORMATS = (needs.ROOT / "docs/FORMATS.md").read_text()
COMMANDS = ("", "check", "run", "coarse", "replay")
STATES = re.compile(r"\d|\bunits?\b|\bhalf\b|\bper\b|\bat (?:least|most)\b|\bmaximum\b")
USAGE = re.compile(r"^Example: |^Usage: |^ +-\w, ")
OPTION = re.compile(r"^ +--([\w-]+) <\w+> .*?(?=\n +-|\n\n)", re.M | re.S)
RANGE = re.compile(r"(\d+) to (\d+)")
DEFAULT = re.compile(r"\[default: (\d+)\]")
PAIRS = [  # words of the help and of FORMATS, whose numbers are equal
    (r"`version = (2)` .* sides up to (65536) cells", r"of version (2) has 1 to (65,536) rows and\s+columns"),
    (r"instead of (4096)", r"of version 1 has 1 to (4096) rows and columns"),
    ("odd rows lie half a cell to the east", "odd rows lie half a cell to the east"),
    ("two characters per cell", r"two\s+characters per cell"),
    (r"line per belt, from (0)", r"blocks and belts count from (0)"),
    (r"one line per block", r"one line per block"),
    (r"among the blocks, from (0)", r"blocks and belts count from (0)"),
    (r"in units of 1/2 and of\s+half the square root of 3 on the triangular lattice", "on the triangular one half of it"),
    (r"half the square root of 3 on the triangular lattice", "on the triangular one √3/2 of it"),
    (r"of 1 on the square one", "on the square lattice the momentum of a particle that moves"),
    (r"(0) is the feeder", r"Turn (0) is the \*\*feeder\*\*"),
    ("G generations need at least G workers", "so G is at most N"),
    (r"the default C is (128), and the default N at least T", r"at least T \|\n.* with `--threads T` (128) \|"),
    (r"as few passes as (64) stages allow", r"as few passes as (64) stages allow"),
]  # fmt: skip


def lines_of(text, found):
    return set(range(text.count("\n", 0, found.start()), text.count("\n", 0, found.end()) + 1))


def rows():
    """The range and the default of each option, by the table of FORMATS."""
    for row in re.findall(r"^\| `--.*$", FORMATS, re.M):
        names, _, _, limits, default = row.strip("| ").split(" | ")
        for name in re.findall(r"--([\w-]+)", names):
            yield name, (RANGE.findall(limits.replace(",", "")), re.findall(r"^\d+", default))


def numbers(found):
    return [group.replace(",", "") for group in found.groups()]


@pytest.fixture(scope="module")
def told(program):
    words = ([program, *command.split(), "--help"] for command in COMMANDS)
    return "\n\n".join(needs.printed(it).decode() for it in words)


def test_options(told):
    stated, options = dict(rows()), [*OPTION.finditer(told)]
    assert options
    for option in options:
        said = RANGE.findall(option[0]), DEFAULT.findall(option[0])
        assert said == stated.get(option[1]), option[1]


@pytest.mark.parametrize("ours, theirs", PAIRS)
def test_pair(told, ours, theirs):
    here, there = list(re.finditer(ours, told)), re.search(theirs, FORMATS)
    assert here and there
    assert {tuple(numbers(found)) for found in here} == {tuple(numbers(there))}


def test_nothing_is_compared_with_nothing(told):
    found = [*OPTION.finditer(told), *(it for ours, _ in PAIRS for it in re.finditer(ours, told))]
    compared = {number for it in found for number in lines_of(told, it)}
    lines = enumerate(told.split("\n"))
    stating = ((at, it) for at, it in lines if STATES.search(it) and not USAGE.search(it))
    assert not [line for at, line in stating if at not in compared]
