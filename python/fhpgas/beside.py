"""Calls side by side, and the cores that each of them may use."""
import concurrent.futures
import contextvars
import functools
import os
from collections.abc import Callable, Iterable, Iterator
from typing import Any

from .groups import Group, group
from .progress import counted

# The cores of a run of `side_by_side`, 0 for any other.
share = contextvars.ContextVar("share", default=0)


def cores_of_call() -> int:
    """How many cores this call may use: its share in a run of `side_by_side`, else those of this
    process, or of the machine if the system does not say."""
    affinity = getattr(os, "sched_getaffinity", None)
    return share.get() or (len(affinity(0)) if affinity else os.cpu_count() or 1)


def side_by_side(
    function: Callable[[Any], Any],
    values: Iterable[Any],
    executor: concurrent.futures.Executor | None = None,
    progress: bool = False,
) -> list[Any]:
    """The results of a function for some values, in their order, computed side by side.

    Parameters
    ----------
    function : callable
        Called with each value, by default in a thread per core: runs compute outside Python's lock.
        An executor sends it to its workers, so it must be at the top of a module that they have.
    values : iterable
        As seeds.
    executor : concurrent.futures.Executor, optional
        Such as Dask's `Client.get_executor()` or mpi4py's `MPIPoolExecutor()`, whose workers need
        this package. `ProcessPoolExecutor()` suits functions that compute in Python themselves.
    progress : bool, optional
        Whether a bar of tqdm counts the calls.

    Returns
    -------
    list

    Raises
    ------
    Exception
        What the first call that fails raises. After it, or an interrupt, no call begins, and the
        others end where they run a lattice next, or when they return.

    Examples
    --------
    >>> size = fhpgas.Size(64, 36)
    >>> def late(seed):
    ...     return fhpgas.draw_gas(0.2, size=size, seed=seed).run(10).generation
    >>> fhpgas.side_by_side(late, range(1, 4))
    [10, 10, 10]
    """
    calls = [functools.partial(alone, function, value) for value in values]
    if executor is not None:
        return _results([executor.submit(call) for call in calls], progress)
    cores, own = cores_of_call(), Group()
    workers = max(1, min(len(calls), cores))
    pool = concurrent.futures.ThreadPoolExecutor(workers)
    with group.get().holding(lambda: own), pool as threads:
        try:
            futures = [threads.submit(call, cores // workers, own) for call in calls]
            return _results(futures, progress)
        except BaseException:
            own.kill()
            raise


def _results(futures: list[concurrent.futures.Future[Any]], progress: bool) -> list[Any]:
    """What futures return. If one fails, those that did not begin are cancelled."""
    try:
        for future in counted(_ended(futures), len(futures), "run", progress):
            future.result()
        return [future.result() for future in futures]
    finally:
        for future in futures:
            future.cancel()


def _ended(futures: list[concurrent.futures.Future[Any]]) -> Iterator[Any]:
    """The futures as they end. A signal that a stopped process gets may come to another thread when
    it continues, and then Python sees it here only after a wait, so none is longer than a second.
    """
    left = set(futures)
    while left:
        done, left = concurrent.futures.wait(left, 1, concurrent.futures.FIRST_COMPLETED)
        yield from done


def alone(
    function: Callable[[Any], Any], value: Any, cores: int = 1, own: Group | None = None
) -> Any:
    """A call of a function beside others, with so many cores, by default in the worker of an
    executor."""
    context = contextvars.copy_context()
    context.run(share.set, cores)
    context.run(group.set, own or Group())
    return context.run(function, value)
