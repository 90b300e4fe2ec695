#!/usr/bin/env python3
"""Compares where the gate refused the wrong bodies of must-fail/ with tests/program/wrong_bodies.txt:
a crate and an edit, then the source file, the function and the clause of it that is false, or the
goal if that is no clause. The first line is the kit's; a kit of another letter may come to another
goal first, so only the files are compared then. --gate LOG is the log of `rt ci`. As a script, with
--write and logs of `rt ci` or `rt must-fail`, it writes what they say to the table."""

import pathlib
import re
import sys

sys.path.append(f"{sys.path[0]}/../lib")
import needs
import pytest

CRATES = needs.ROOT / "crates"
TABLE = needs.ROOT / "tests/program/wrong_bodies.txt"
TRIED = re.compile(r"must-fail (\w+)/([\w.-]+)\.edit: refused, as it must be(.*)")
# the head of a function, or of a constant that a trait asks for
FUNCTION = re.compile(r'^( *)(?:pub(?:\([^)]*\))? )?(?:extern "C" )?(?:fn|const) (\w+)')


def functions(lines):
    """Each line's function, with the clauses that it promises; a clause without a name is called `ensures`."""
    name, promised, at = None, [], []
    for line in lines:
        if head := FUNCTION.match(line):
            name, promised = head[2], []
        if clause := re.match(r"\s*ensures\*?(?: (\w+))? \{", line):
            promised.append(clause[1] or "ensures")
        at.append((name, promised))
    return at


def source_of(crate, folders):
    """The source file of a folder of proofs, whose path has the modules, perhaps a type, and the function, after a + if it calls itself;
    and that function."""
    function = folders[-1].removeprefix("+")
    for length in range(len(folders) - 1, -1, -1):
        stem = "/".join(folders[:length]) or "lib"
        for path in (f"src/{stem}.rt", f"src/{stem}/mod.rt"):
            if (CRATES / crate / path).exists():
                return path, function
    return "src/lib.rt", function


def place(crate, told):
    """Where the prover refused it: file, function and clause; what else it said if that is no clause."""
    if "only because a proof file names" in told:
        return "-", "-", "a name that a proof file cites"
    said = told.split("error:")[-1]
    goal = (re.search(r"\(`([\w-]+)", said) or re.search(r"`([\w-]+)", said) or [None, ""])[1]
    if proof := re.search(r"\./proofs/([\w/+]+)/(?:Answers|Invariants|Proof)\.antt", told):
        file, function = source_of(crate, proof[1].split("/"))
        lines = (CRATES / crate / file).read_text().split("\n")
        at = reversed(functions(lines))
        promised = next((clauses for name, clauses in at if name == function), [])
    elif note := re.search(r"(src/[\w/]+\.rt):(\d+)", told):
        file, lines = note[1], (CRATES / crate / note[1]).read_text().split("\n")
        at = functions(lines)
        begun = int(note[2]) - 1
        head = next(i for i in range(begun, len(lines)) if not re.match(r"\s*(#\[|//)", lines[i]))
        function = FUNCTION.match(lines[head])[2] if FUNCTION.match(lines[head]) else at[begun][0]
        promised = next(clauses for name, clauses in reversed(at) if name == function)
    elif lemma := re.search(r"\./(proofs/\w+\.antt):\d+:\d+: error: `([\w-]+)`", told):
        return lemma[1], lemma[2], "not a clause: a lemma"
    else:
        return "-", "-", "a limit of the prover" if "only by a limit" in told else told[:60]
    if "the `invariant` of the struct" in told:  # rt may cut off the goal's name
        return file, function, "not a clause: the invariant of its struct"
    if re.match(r"returns[\w-]*$", goal) and told.endswith(goal):
        return file, function, "a clause whose name rt cut off"
    if clause := re.search(r"^returns.*clause-(\w+)", goal):
        return file, function, clause[1]
    if goal.startswith("returns") and len(promised) < 2:
        return file, function, (promised or ["ensures"])[0]  # of a trait, if it has none of its own
    if goal.startswith("returns"):
        return file, function, f"one of its {len(promised)} clauses"
    of_a_call = r"(\w+-)?(requires|overflow|bounds|invariant_of|loop)"
    if len(promised) == 1 and not re.match(of_a_call, goal):
        return file, function, f"{promised[0]}, in the lemma {goal}"
    return file, function, f"not a clause: {goal}"


def read_table():
    """The kit's letter, and the places of the edits."""
    letter, *lines = TABLE.read_text().splitlines()
    rows = (re.split(r"  +", line) for line in lines)
    return letter, {edit: tuple(place) for edit, *place in rows}


def read_log(path):
    """The places at which a log says that edits were refused."""
    tried = TRIED.findall(pathlib.Path(path).read_text(errors="replace"))
    return {f"{crate}/{edit}": place(crate, told) for crate, edit, told in tried}


EDITS = {f"{path.parts[-3]}/{path.stem}" for path in CRATES.glob("*/must-fail/*.edit")}
RECORDED, PLACES = read_table()


def kit():
    return (needs.kit() or [RECORDED])[0]


@pytest.fixture(scope="module")
def found(pytestconfig):
    log = pytestconfig.getoption("gate")
    return read_log(log) if log else pytest.skip("--gate names no log of rt ci")


@pytest.fixture(scope="module")
def compared():
    return 3 if kit() == RECORDED else 1


@pytest.mark.parametrize("edit", sorted(EDITS | PLACES.keys()))
def test_refused(found, compared, edit):
    if edit not in PLACES:
        pytest.skip(f"the table lacks {edit}")
    assert edit in EDITS, "it is no edit"
    assert found[edit][:compared] == PLACES[edit][:compared]


def write(logs):
    places = PLACES | {edit: it for log in logs for edit, it in read_log(log).items()}
    rows = [(edit, *place) for edit, place in sorted(places.items()) if edit in EDITS]
    wide = [max(len(row[i]) for row in rows) + 2 for i in range(3)]
    lines = ("".join(f"{it:{n}}" for it, n in zip(row, [*wide, 0])) for row in rows)
    TABLE.write_text("\n".join([kit(), *lines]) + "\n")
    clauses = sum(bool(re.fullmatch(r"\w+", row[3])) for row in rows)
    print(f"{clauses} of {len(EDITS)} edits are refused at a clause that their function promises")


if __name__ == "__main__" and sys.argv[1:2] == ["--write"]:
    write(sys.argv[2:])
