"""Counts the instructions of the kernel by plain Rust, and compares them with the table of
docs/PERFORMANCE.md, which other versions of rustc and valgrind leave out."""

import os
import sys

import needs
import pytest

sys.path.append(str(needs.ROOT / "bench"))
import instructions

pytestmark = pytest.mark.alone  # one build for all counts
MORE = 1.03  # the most that a count may be above the table's


@pytest.fixture(scope="module")
def found(tool):
    """The counts by what the table names for a kind, by the caller's Rust."""
    with pytest.MonkeyPatch.context() as patch:
        patch.setenv("PATH", os.environ["CALLERS_PATH"])
        for name in ("cargo", "rustc", "valgrind"):
            tool(name)
        own, wanted = instructions.tools(), instructions.published()[0]
        if own != wanted or not instructions.has_level():
            pytest.skip(f"the table is of {wanted}, and here is {own}")
        program = instructions.build(needs.ROOT / "out/instructions")
        return {str(kind): each for kind, each in instructions.counts(program).items()}


@pytest.mark.may_be_left_out
@pytest.mark.parametrize("kind", map(str, instructions.KINDS))
def test_instructions(found, kind):
    wanted = instructions.published()[1][kind]
    assert len(found[kind]) == len(wanted)
    assert all(own <= MORE * most for own, most in zip(found[kind], wanted))
