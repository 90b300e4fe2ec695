"""Lattices and blocks in the forms of other tools: datasets of xarray, which netCDF and zarr keep,
and numpy's .npz. Both hold all parts of the value, so nothing is lost on the way back."""
from __future__ import annotations

import io
import zipfile
import zlib
from typing import TYPE_CHECKING, Any

import numpy as np

from .fault import Fault, library
from .fields import Size, positions

if TYPE_CHECKING:
    from xarray import Dataset

# What numpy raises for a .npz file that is cut or changed.
BROKEN = (ValueError, KeyError, OSError, EOFError, RuntimeError, zipfile.BadZipFile, zlib.error)
LENGTH, VELOCITY = "cell widths", "cell widths per generation"
UNITS = {
    "fluid": "cells",
    "particles": "1",
    "px": "particles of the gas's unit eastwards",
    "py": "particles of the gas's unit northwards",
    "density": "particles per fluid cell",
    "east": VELOCITY,
    "north": VELOCITY,
}


def parts_of(value: Any) -> dict[str, Any]:
    """The parts that make a value, the gas by its name."""
    return {name: getattr(value, name) for name in value.PARTS} | {"gas": value.gas.name}


def made(kind: Any, parts: dict[str, Any]) -> Any:
    """The value of a kind that has these parts, as a file or a dataset has them."""
    names = {*kind.PARTS}
    if missing := names - parts.keys():
        raise Fault(f"this is no {kind.__name__}: it lacks {', '.join(sorted(missing))}")
    found = {name: np.asarray(parts[name]) for name in names}
    plain = {name: array if array.ndim > 1 else array.tolist() for name, array in found.items()}
    if "size" in plain:
        plain["size"] = Size(*plain["size"])
    return kind(**plain)


def to_npz(value: Any) -> bytes:
    """The bytes of a .npz file, compressed."""
    file = io.BytesIO()
    np.savez_compressed(file, **parts_of(value))
    return file.getvalue()


def from_npz(kind: Any, data: bytes) -> Any:
    """The value of a kind that the bytes of a .npz file have."""
    try:
        with np.load(io.BytesIO(data)) as found:
            parts = dict(found)
    except BROKEN as fault:
        raise Fault(f"this is no whole .npz file: {fault}") from None
    try:
        return made(kind, parts)
    except TypeError as fault:
        raise Fault(fault) from None


def to_xarray(value: Any) -> Dataset:
    """The same as a Dataset of xarray, with names, units and places, which netCDF and zarr keep.

    The seed is a text, and the generation a float, because netCDF of version 3 has no longer
    integers.

    Returns
    -------
    xarray.Dataset
        Arrays with the dimensions y and x; the other parts are its attributes.
    """
    parts = parts_of(value)
    fields = UNITS if "fluid" in parts else ("states", "solid")
    data = {
        name: (("y", "x"), getattr(value, name), {"units": UNITS.get(name, "1")}) for name in fields
    }
    kept = {name: part for name, part in parts.items() if name not in fields}
    time = ((), float(kept.pop("generation")), {"long_name": "generation"})
    if "seed" in kept:
        kept["seed"] = str(kept["seed"])
    return library("xarray").Dataset(data, _places(value) | {"generation": time}, kept)


def _places(value: Any) -> dict[str, Any]:
    """The coordinates of a dataset. Of the triangular lattice X has the places eastwards, because
    every other row lies half a cell to the east."""
    x, y = value.positions if "block" in value.PARTS else positions(value.size, value.gas)
    east, north = ({"units": LENGTH, "long_name": f"{way}wards"} for way in ("east", "north"))
    if x.ndim == 2:
        return {"X": (("y", "x"), x.astype(np.float32), east), "y": ("y", np.ravel(y), north)}
    return {"x": ("x", x, east), "y": ("y", y, north)}


def from_xarray(kind: Any, dataset: Dataset) -> Any:
    """The value whose `to_xarray` a dataset is, also after a file kept it.

    Parameters
    ----------
    dataset : xarray.Dataset

    Returns
    -------
    Lattice or Blocks

    Raises
    ------
    Fault
        If it has other dimensions, or rows or columns in another order.

    Examples
    --------
    >>> start = fhpgas.draw_gas(0.2, size=fhpgas.Size(64, 36), seed=1)
    >>> fhpgas.Lattice.from_xarray(start.to_xarray()) == start
    True
    """
    known = {str(name): value for name, value in dataset.attrs.items()}
    if "generation" in dataset.coords:
        known["generation"] = np.rint(dataset["generation"].values).astype(np.int64)
    if "seed" in known:
        known["seed"] = int(known["seed"])
    try:
        fields = {str(name): dataset[name].transpose("y", "x").values for name in dataset}
    except ValueError:
        why = f"{kind.__name__} are of y and x, and this dataset has "
        why += ", ".join(map(str, dataset.sizes))
        raise Fault(f"{why}: `isel` takes one of a time") from None
    value = made(kind, known | fields)
    for name, (dimensions, places, _) in _places(value).items():
        if name in dataset.coords:
            found = dataset[name].transpose(*np.atleast_1d(dimensions)).values
            if found.shape != places.shape or not np.allclose(found, places):
                raise Fault(f"`{name}` is not where these cells are: sort by y falling, x rising")
    return value
