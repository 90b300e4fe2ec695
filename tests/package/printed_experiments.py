"""Runs the commands of docs/EXPERIMENTS.md that take long, its blocks without a mark, as they are printed. The lines of the block after them
must be among the lines that they print, and they must draw each picture of their section. All take three quarters of an hour of processor
time, so this is for a release."""

import re
import subprocess

import needs
import pytest

needs.libraries()
from matplotlib.testing.compare import compare_images  # noqa: E402

BLOCK = re.compile(r"^```\n(.*?)^```$", re.M | re.S)
COMMANDS = re.compile(r"experiments/|python3 ")
PICTURE = re.compile(r"\(images/(\S+)\)")
TOLERANCE = 3  # root mean square of the difference of two pictures' colours, 0 to 255


PAGE = (needs.ROOT / "docs/EXPERIMENTS.md").read_text()
SECTIONS = [
    it
    for it in PAGE.split("\n## ")[1:]
    if PICTURE.search(it) or any(map(COMMANDS.match, BLOCK.findall(it)))
]


@pytest.mark.parametrize("section", SECTIONS, ids=lambda it: it.partition("\n")[0])
def test_section(program, tmp_path, monkeypatch, section):
    monkeypatch.setenv("PYTHONPATH", str(needs.ROOT / "python"))
    (tmp_path / "experiments").symlink_to(needs.ROOT / "experiments")
    blocks = BLOCK.findall(section)
    for commands, wanted in zip(blocks, [*blocks[1:], ""]):
        if COMMANDS.match(commands):
            words = ["bash", "-ec", commands]
            ran = subprocess.run(words, cwd=tmp_path, capture_output=True, text=True)
            assert (ran.returncode, ran.stderr) == (0, "")
            assert {*wanted.splitlines()} <= {*ran.stdout.splitlines(), ""}
    for name in PICTURE.findall(section):
        kept, drawn = str(needs.ROOT / "docs/images" / name), str(tmp_path / name)
        assert compare_images(kept, drawn, TOLERANCE) is None
