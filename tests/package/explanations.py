"""Tries `fhpgas.explain`: it says the program's line, the place and the reason of a refused scene,
also on a Python without libraries."""
import subprocess
import sys

import needs
import pytest

needs.built_program()
import fhpgas  # noqa: E402 - finds the program by the line above

AREA, LINE = 'gas = "fhp1"\nwidth = 3\nheight = 3\n', "scene: "
# A scene, the line that refuses it, and a part of the reason.
CASES = r"""
gas = "fhp1"\ncells = ["01"\n"01"]\n | not TOML | line 3, column 1: Unclosed array
gas = "hpp"\ncells = ["01",\n | not TOML | end of document: Invalid value: a value is missing, or the bracket that closes a list
cells = [".."]\ngas = | not TOML | end of document: Invalid value: a value is missing, or the bracket that closes a list
gas = "FHP-II"\ncells = [".."]\n | out of range | `gas` is "FHP-II"; its name here is `fhp-rest`
gas = "fhp2"\ncells = [".."]\n | out of range | `gas` is "fhp2"; its name here is `fhp-rest`
gas = "FHP-I"\ncells = [".."]\n | out of range | `gas` is "FHP-I"; its name here is `fhp1`
gas = "HPP"\ncells = [".."]\n | out of range | `gas` is "HPP"; its name here is `hpp`
gas = "FHP-III"\ncells = [".."]\n | out of range | there is none here, only `fhp1`
gas = “hpp”\n | not TOML | line 1, column 7: Invalid value: the quotes are curly
gas = "hpp"\nparticles = [[0, 0, 3f]]\n | not TOML | a hexadecimal state is 0x3f
generation 1 particles 1\n01..\n | not TOML | the text is what `run` prints
AREAseed = 9223372036854775808\n | not TOML | line 4, column 1: 9223372036854775808 is no integer of 64 bits
gas = "fhp1"\nseed = LONG\n | not TOML | line 2: an integer of thousands of digits
gas = "fhp1"\nseed = 0xLONG\n | not TOML | line 2, column 1: one of 39996 bits is no integer of 64 bits
# a\n[scene]\nAREA | unknown key | line 2, column 2: "scene" is no key of a scene, and all keys stand at the top level
gas = "fhp1"\ncells = [".."]\n  width = 3\n | both forms | line 3, column 3: `width` is a key of an area
gas = "fhp1"\nwidth = 3\n | missing key | `height` is missing
AREAsolid = [[0, 0, 1, 1],\n  [1, 1, 1]]\n | wrong type | line 5, column 3: entry 1 of `solid`
AREAsolid = [0, 0, 1, 1]\n | wrong type | must be a list of entries: [[0, 0, 1, 1]]
gas = "fhp1"\nwidth = 5000\nheight = 3\n | out of range | must be 1 to 4096 (with `version = 2` to 65536)
gas = "hpp"\nwidth = 4\nheight = 3\nparticles = [[1, 1, 16]]\n | out of range | has state 16, and those of hpp are 0 to 15
gas = "fhp1"\ncells = ["..", "....", "...."]\n | row 1 has a wrong length | so row 0 may be the wrong one
gas = "fhp1"\ncells = [\n  "0101",\n  "013F",\n]\n | row 1 cell 1 is not a cell | line 4, column 6: `3F` has a capital digit
"""
WORDS = {r"\n": "\n", "AREA": AREA, "LONG": "9" * 9999}
BARE = """\
import sys; sys.path.insert(0, sys.argv[1]); import fhpgas
print(fhpgas.explain(sys.argv[2]), end=''); fhpgas.draw_gas
"""


@pytest.mark.parametrize("case", CASES.strip().split("\n"))
def test_a_refused_scene_is_explained(case):
    """Also by a bare Python, which has neither numpy nor its packages' folders."""
    text, line, reason = case.split(" | ")
    for word, meaning in WORDS.items():
        text = text.replace(word, meaning)
    told = fhpgas.explain(text)
    assert told.startswith(f"{LINE}{line}\n  ") and reason in told.split("\nand then")[0]
    with pytest.raises(fhpgas.Fault) as refused:
        fhpgas.check(text)
    assert str(refused.value).removesuffix(" (`explain` says where)") == LINE + line
    words = [sys.executable, "-I", "-S", "-c", BARE, needs.ROOT / "python", text]
    bare = subprocess.run(words, capture_output=True, text=True)
    assert bare.stdout == told and "fhpgas.draw_gas needs numpy" in bare.stderr
