"""Makes the first change of CONTRIBUTING in a copy. docs/first_change.diff must fit and have the
contract that the page quotes. Its crate must be proved, and its wrong body refused, like the body that
the page begins with. The page of definitions must have the new one, no count of a document change, and
the new definition be one whose text is kept."""

import re
import subprocess
import sys

import needs
import pytest

pytestmark = pytest.mark.alone
DEFINED = re.compile(r"```antt\n(.*?)\n *```", re.S)
DIFF = needs.ROOT / "docs/first_change.diff"
PAGE = (needs.ROOT / "CONTRIBUTING.md").read_text()
DEFINITION = [it.strip() for it in DEFINED.search(PAGE)[1].split("\n")]
QUOTED = [it.strip() for it in re.search(r"\n( */// .*?\n *})\n", PAGE, re.S)[1].split("\n")]
PACKED = (
    "crates",
    "crates.txt",
    "CONTRIBUTING.md",
    "CHANGELOG.md",
    "README.md",
    "docs",
    "tests",
    "pyproject.toml",
)


def run(room, *words):
    return subprocess.run(
        words, cwd=room, stdout=subprocess.PIPE, stderr=subprocess.STDOUT, text=True
    )


@pytest.fixture(scope="module")
def changed(tool, tmp_path_factory):
    """The copy with the change, and with the first body as a second wrong one."""
    tool("rt")
    room = tmp_path_factory.mktemp("copy")
    packed = ["tar", "-c", "--exclude=out", *PACKED]
    needs.printed(["tar", "-x"], needs.printed(packed, cwd=needs.ROOT), cwd=room)
    edits = room / "crates/gas_geom/must-fail"
    for edit in edits.iterdir():  # the gate has tried them
        edit.unlink()
    needs.printed(["git", "apply", DIFF], cwd=room)
    old, new = "u64::from(self.width) * u64::from(self.height)", QUOTED[4]
    (edits / "too_large.edit").write_text(f"file: src/size.rt\nold: {old}\nnew: {new}\n")
    return room


@pytest.fixture(scope="module")
def told(changed):
    """How the page's commands end in the folder of the crate, which needs no other."""
    words = "rt check", "rt must-fail gas_geom", "rt fmt"
    return [run(changed / "crates/gas_geom", *it.split()) for it in words]


def test_it_is_proved_as_it_is_laid_out(told, changed):
    assert told[0].returncode == 0, told[0].stdout
    assert "fn gas_geom::size::Size::cells: proved" in told[0].stdout
    needs.printed(["git", "apply", "--reverse", "--check", DIFF], cwd=changed)


def test_page_quotes_definition_and_contract():
    added = [it[1:].strip() for it in DIFF.read_text().split("\n") if it.startswith("+")]
    assert {*DEFINITION, *QUOTED[:3]} <= {*added}


@pytest.mark.parametrize(
    "edit, goal",
    [("every_channel_is_square", "returns"), ("too_large", "overflow_mul-self-inside")],
)
def test_wrong_body_is_refused(told, edit, goal):
    words = rf"must-fail gas_geom/{edit}.edit: refused, as it must be: .*\(`{goal}`\)"
    assert re.search(words, told[1].stdout)


def test_page_of_definitions_has_its_definition(changed):
    needs.printed(["tests/documents/definitions.py", "page"], cwd=changed)
    assert re.search("^abbrev pub cells : ", (changed / "page").read_text(), re.M)


def test_no_count_of_a_document_changes(changed):
    assert run(changed, "tests/documents/promises.py", "--write").returncode == 0
    assert "gas_geom Size.cells:" in (changed / "tests/documents/promises.txt").read_text()
    files = [f"tests/documents/{name}.py" for name in ("definitions", "proved", "promises")]
    ran = run(changed, sys.executable, "-m", "pytest", "-q", "-k", "not c_functions", *files)
    assert ran.returncode == 0, ran.stdout
