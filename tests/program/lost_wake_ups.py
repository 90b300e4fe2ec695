"""Has the model checker spin look for a wake-up that can be lost in a model of how the threads of a
line wait (lost_wake_ups.pml), in four short lines, two of which have fewer threads than stages, and
tries that it finds the ones of two wrong models. A model is not the program: it is kept like the
code of the waiting by hand."""

import subprocess

import needs
import pytest

MODEL = (needs.ROOT / "tests/program/lost_wake_ups.pml").read_text()
LINES = {
    "two workers of a stage, two places": "",
    "two workers of a stage, one place": "-DPLACES=1",
    "two workers of two stages, the feeder beside the first": "-DSTAGES=2 -DALONE=false -DPLACES=1",
    "three workers of three stages, the feeder beside the first": "-DWORKERS=3 -DSTAGES=3 -DALONE=false",
}
WRONG = {
    "a thread that does not look again before it parks": (
        ":: !announced -> parking[t] = true; announced = true",
        ":: !announced -> parking[t] = true; asleep[t] = true; !asleep[t]",
    ),
    "a wake that looks whether the thread sleeps already": (
        ":: parking[who] ->",
        ":: asleep[who] ->",
    ),
}


@pytest.fixture
def spin(tool, tmp_path):
    """What spin says of a model."""
    tool("spin")

    def said(model, *words):
        (tmp_path / "model.pml").write_text(model)
        words = ["spin", *words, "-run", "-O2", "-m100000", "model.pml"]
        ran = subprocess.run(words, cwd=tmp_path, capture_output=True, text=True)
        return ran.stdout + ran.stderr

    return said


@pytest.mark.parametrize("words", LINES.values(), ids=LINES)
def test_no_wake_up_is_lost(spin, words):
    said = spin(MODEL, *words.split())
    assert "errors: 0" in said
    assert "search not completed" not in said and "max search depth" not in said


@pytest.mark.parametrize("old, new", WRONG.values(), ids=WRONG)
def test_wrong_model_is_found(spin, old, new):
    """A member waits for ever."""
    assert old in MODEL
    assert "invalid end state (at depth" in spin(MODEL.replace(old, new))
