"""The types of the package's arrays, and arrays of what callers pass."""
from collections.abc import Iterable
from typing import Any, TypeAlias, TypeVar

import numpy as np
from numpy.typing import NDArray

from .fault import Fault

Array: TypeAlias = NDArray[Any]
Ints: TypeAlias = NDArray[np.int64]
Floats: TypeAlias = NDArray[np.float64]
Sums: TypeAlias = NDArray[np.int64 | np.float64]  # integers in `hpp`, of blocks if not smoothed
Words: TypeAlias = NDArray[np.uint64]
States: TypeAlias = NDArray[np.uint8]
Mask: TypeAlias = NDArray[np.bool_]
Same = TypeVar("Same", bound=Array)


def read_only(array: Same) -> Same:
    """The same array, which can no longer be written."""
    array.flags.writeable = False
    return array


def array_of(what: str, values: Any) -> Array:
    """Values as an array. Masked ones, which numpy's functions would take for values, and texts,
    which some of them would read, raise a Fault that begins with `what`."""
    found = np.ma.asarray(values)
    if found.dtype.kind in "SU":
        raise Fault(f"{what}: these are texts, and numbers are wanted")
    if np.ma.is_masked(found):
        raise Fault(f"{what}: a masked value is none, so fill it first, as by .filled(0)")
    return np.asarray(found.data)


def floats_of(what: str, values: Iterable[Any], why: str) -> Floats:
    """Values as a new array of floats. Others raise a Fault, of `why` or as `array_of` does."""
    try:
        return array_of(what, [*values]).astype(float)
    except Fault:
        raise
    except (TypeError, ValueError):
        raise Fault(why) from None


def mask(values: Any) -> Mask:
    """Truth values, or numbers that are 0 or 1, as a new array of truth values. Anything else, such
    as an image's greys, raises a Fault."""
    array = array_of("solid cells", values)
    if array.dtype.kind not in "iub" or array.size and not 0 <= array.min() <= array.max() <= 1:
        why = f"not {array.dtype}: compare an image with a number, as in `image > 127`"
        raise Fault(f"solid cells are an array of truth values, or of 0 and 1, {why}")
    return array.astype(bool)
