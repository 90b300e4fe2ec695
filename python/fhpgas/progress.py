"""Bars that count the parts of what goes on."""
import warnings
from collections.abc import Iterable
from typing import Any


def counted(values: Iterable[Any], total: int, unit: str, progress: bool) -> Iterable[Any]:
    """The values, if progress is asked for with a bar of tqdm."""
    if not progress:
        return values
    try:
        from tqdm.auto import tqdm
    except ModuleNotFoundError:
        warnings.warn("no bar counts, because tqdm is missing: pip install tqdm", stacklevel=2)
        return values
    return tqdm(values, total=total, unit=unit, leave=False)
