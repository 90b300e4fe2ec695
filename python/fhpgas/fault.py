"""What is raised for input that does not fit, and the checks that many calls share."""
import contextlib
import importlib
import math
import operator
import reprlib
import sys
from typing import Any, SupportsIndex

from .limits import MOST_SEED


class Fault(ValueError):
    """Why an input does not fit, in one line that names what was given and what is allowed."""

    def __init__(self, why: object):
        super().__init__(" ".join(str(why).split()))


class Usage(Fault):
    """A Fault of the words of a command line, after which a program ends with 2."""


def seed_of(value: Any) -> int:
    """A seed as an int of 63 bits: an integer, or the first bits of a SeedSequence of numpy."""
    if hasattr(value, "generate_state"):
        high, low = value.generate_state(2)
        return int(high) << 31 | int(low) >> 1
    return integer("a seed", value, 0, MOST_SEED)


def integer(what: str, value: SupportsIndex, least: int = 0, most: int | None = None) -> int:
    """A value as an int from `least` to `most`. Anything else raises a Fault that begins with
    `what`."""
    with contextlib.suppress(TypeError):
        if least <= (number := operator.index(value)) and (most is None or number <= most):
            return number
    limits = f"from {least}" if most is None else f"from {least} to {most}"
    raise Fault(f"{what} is an integer {limits}, not {reprlib.repr(value)}")


def real(what: str, value: Any, least: float = -math.inf, most: float = math.inf) -> float:
    """A value as a finite float from `least` to `most`. Anything else, also the text of a number,
    raises a Fault that begins with `what`."""
    with contextlib.suppress(TypeError, ValueError, OverflowError):
        if math.isfinite(value) and least <= (number := float(value)) <= most:
            return number
    raise Fault(f"{what} is a number from {least:g} to {most:g}, not {reprlib.repr(value)}")


def library(name: str) -> Any:
    """A module of a library that some calls need. If it is missing, a Fault names its package."""
    try:
        return importlib.import_module(name)
    except ModuleNotFoundError as missing:
        package = str(missing.name).partition(".")[0].lower().replace("pil", "pillow")
        debian = f", or Debian's python3-{package.replace('pillow', 'pil')}" * (
            sys.prefix == "/usr"
        )
        why = f"{sys.executable} lacks the package {package}: pip install {package}{debian}"
        raise Fault(why) from None
