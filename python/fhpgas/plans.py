"""Plans: the stages of a run of the program, the rows per belt, and the threads."""
from .beside import cores_of_call
from .fault import integer
from .limits import CAPACITY, MOST_CAPACITY, MOST_GENERATIONS, MOST_STAGES


def plan(
    rows: int, generations: int, cores: int | None = None, stages: int | None = None
) -> tuple[int, int, int]:
    """Good numbers of stages, rows per belt and threads (docs/PERFORMANCE.md).

    Parameters
    ----------
    rows, generations : int
        Of the run.
    cores : int, optional
        By default those that this process may use, in a run of `side_by_side` its share of them.
    stages : int, optional
        By default those of passes of equal length, as few as 64 in all, one per 16 rows and one per
        generation allow.

    Returns
    -------
    stages, capacity, threads : int
        One thread per core, at most one per stage.

    Examples
    --------
    >>> fhpgas.plan(1024, 1000, cores=4)
    (63, 128, 4)
    """
    cores = cores or cores_of_call()
    most = max(1, min(MOST_STAGES, rows // 16, generations))
    even = -(-generations // max(1, -(-generations // most)))  # both divisions round up
    stages = stages or max(even, min(cores, most))
    return stages, CAPACITY, min(cores, stages)


def planned(
    rows: int, generations: int, stages: int | None = None, capacity: int | None = None
) -> tuple[object, ...]:
    """The words of a plan. What is out of its range raises a Fault."""
    generations = integer("the number of generations", generations, 0, MOST_GENERATIONS)
    if stages is not None:
        integer("the number of stages", stages, 1, MOST_STAGES)
    if capacity is not None:
        integer("the capacity", capacity, 1, MOST_CAPACITY)
    number, places, threads = plan(rows, generations, stages=stages)
    how = "--stages", number, "--capacity", capacity or places, "--threads", threads
    return "--generations", generations, *how
