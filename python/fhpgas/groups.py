"""What goes on together, and what ends it together."""
import contextlib
import contextvars
import threading
from collections.abc import Callable, Iterator
from typing import Any

from .fault import Fault


class Group:
    """What goes on in the calls of one `side_by_side`, so that all of it can be ended: programs,
    and what the calls themselves compute side by side."""

    def __init__(self) -> None:
        self.lock, self.going, self.are_ended = threading.Lock(), set[Any](), False

    @contextlib.contextmanager
    def holding(self, begin: Callable[[], Any]) -> Iterator[Any]:
        """What `begin` returns, unless the runs are ended. It has a method `kill`."""
        with self.lock:
            self.go_on()
            begun = begin()
            self.going.add(begun)
        try:
            yield begun
        finally:
            with self.lock:
                self.going.discard(begun)

    def go_on(self) -> None:
        """Ends the run that calls it, by a Fault, if all are to end."""
        if self.are_ended:
            raise Fault("another run failed, or all were interrupted")

    def kill(self) -> None:
        with self.lock:
            self.are_ended = True
            for each in self.going:
                each.kill()


group = contextvars.ContextVar("group", default=Group())  # to which this call belongs
