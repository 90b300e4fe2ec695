"""What the tests of the package in python/ share: the program, small scenes, and how a call is tried."""

import math
import os

import needs
import numpy as np
import pytest

needs.libraries()
PROGRAM = needs.built_program()
os.environ["PYTHONPATH"] = str(needs.ROOT / "python")
import fhpgas  # noqa: E402 - finds the program by the lines above

GASES, ROOT3 = tuple(fhpgas.GASES), math.sqrt(3)
AREA = 'gas = "fhp1"\nseed = 7\nwidth = 66\nheight = 9\nrate = 300\nsolid = [[20, 2, 3, 4]]\n'
TABLE = """\
  col   row    fluid particles         px         py
    0     0        3         8          3          1
    1     0        4         0          0          0
    2     0        0         0          0          0
"""


def wind(size, gas="fhp1", chirality="seeded", solid=None):
    """A gas that flows to the north-east, with a disc if there is room."""
    size = fhpgas.Size(*size)
    solid = fhpgas.disc(size, 20, 20, 8, gas) if solid is None and min(size) > 30 else solid
    return fhpgas.draw_gas(
        0.3, 0.2, 0.1, size=size, solid=solid, gas=gas, chirality=chirality, seed=3
    )


def fault(part, function, *words):
    """The call has a Fault of one line with this part."""
    with pytest.raises(fhpgas.Fault) as caught:
        function(*words)
    assert isinstance(caught.value, ValueError)
    assert part in str(caught.value) and "\n" not in str(caught.value)


def same(found, wanted, places=12):
    """Both are arrays of one shape whose numbers are close, with nan where the other has it."""
    np.testing.assert_allclose(
        np.asarray(found, float), np.asarray(wanted, float), rtol=0, atol=10.0**-places
    )
