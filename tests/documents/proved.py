"""Compares docs/PROVED.md with the sources: each item of its promises names clauses, and the linked
file has a function of that name with these clauses. Its table and README count the lines of
definitions that contracts rest on. It also compares the C functions that the page
lists with those that the kit names in the log of the program, which `make` leaves."""

import functools
import re

import definitions
import needs
import pytest
import sources

LOG = needs.ROOT / "crates/fhpgas/out/build.log"
PROMISES = ("## The promises", "## What only tests show")
TEXT = sources.PROVED.read_text()
LADDER = re.compile(r"^\| (.*?) +\| +([\d,]+) \| +([\d,]+) \|$", re.M)
SAID = [  # of these in README
    (("answer", "Fault::status"), "These are {} lines of [definitions]"),
    (("answer", "Fault::status"), "and {1} of the kit's"),
    (("run",), "rests on {} lines"),
]
CITED = re.compile(r"\[(`\w+`(?:,\s+`\w+`)*)\]\[([\w:]+)\]")


@functools.cache
def clauses(path):
    """The names of the clauses of each function of a source."""
    found = sources.functions(path.read_text())
    return {it.call: {name for _, name, _ in it.clauses} for it in found}


def assumed(log):
    """The C functions that a log says the program's proof reached, as the page lists them."""
    crates = re.findall(r"^axioms (\w+): \d+ reached.*\n((?:  .*\n)*)", log, re.M)
    known = ((crate, re.findall(r"^  (\S+) +reached$", lines, re.M)) for crate, lines in crates)
    named = {crate: " ".join(name.partition("::")[2] for name in names) for crate, names in known}
    return " ".join(f"{crate}: {names}" for crate, names in named.items() if names)


@pytest.mark.may_be_left_out  # the gate leaves no log of the program, `make` does
@pytest.mark.skipif(
    not LOG.exists(), reason="make left no log of the program, with the C functions"
)
def test_c_functions():
    assert assumed(LOG.read_text(errors="replace")) in " ".join(TEXT.split())


def number_of_lines(calls):
    """The lines of definitions that these rest on, of ours and of the kit's."""
    parts = definitions.read().below_calls(calls)
    return [f"{definitions.lines_of(part.values()):,}" for part in parts]


@pytest.mark.parametrize("what, ours, kits", LADDER.findall(TEXT))
def test_ladder(what, ours, kits):
    own, of_kit = number_of_lines(re.findall(r"\[([\w:]+)\]", what))
    assert own == ours
    assert of_kit == kits if definitions.read().letter else pytest.skip("rt is missing")


@pytest.mark.parametrize("calls, said", SAID)
def test_readme(calls, said):
    read = definitions.read()
    text = " ".join((needs.ROOT / "README.md").read_text().split())
    assert (
        said.format(*number_of_lines(calls)) in text
        if read.letter
        else pytest.skip("rt is missing")
    )


@pytest.mark.parametrize("names, call", CITED.findall(TEXT))
def test_clauses(names, call):
    has = clauses(sources.LINKED[call]).get(call, set())
    assert {*re.findall(r"\w+", names)} <= has


def test_each_promise_names_a_clause():
    promises = TEXT[TEXT.index(PROMISES[0]) : TEXT.index(PROMISES[1])]
    items = (it for it in re.split(r"\n(?=- )|\n\n", promises) if it.startswith("- "))
    assert not [item for item in items if not CITED.search(item)]
