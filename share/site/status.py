"""The result of the last build, as far as the server has to know it."""
from __future__ import annotations

import threading
import time
from contextlib import contextmanager
from dataclasses import dataclass
from typing import Callable, Iterator, Optional

from faults import Fault

# A reader waits so long for a build, and a build so long for readers.
READER_WAITS = 5.0
BUILD_WAITS = 1.0


@dataclass(frozen=True)
class State:
    # Changes whenever `_site` does, also from one run to the next.
    version: str
    fault: Optional[Fault]
    stopped: bool


class Status:
    """Shared by the builder and by the threads that serve."""

    def __init__(self) -> None:
        self.changed = threading.Condition()
        self.run = time.time_ns()
        self.count = 0
        self.fault: Optional[Fault] = None
        self.stopped = False
        self.building = True
        self.readers = 0

    def state(self) -> State:
        return State(f"{self.run:x}-{self.count}", self.fault, self.stopped)

    def begin(self) -> None:
        """A build begins. Whoever is reading a file of `_site` may finish that, within a moment."""
        with self.changed:
            self.building = True
            self.changed.wait_for(lambda: self.readers == 0, BUILD_WAITS)

    def done(self) -> None:
        """It writes no more."""
        with self.changed:
            self.building = False
            self.changed.notify_all()

    def end(self, changed: bool, fault: Optional[Fault]) -> None:
        """What came of it: whether `_site` changed, and the fault of the site."""
        with self.changed:
            self.building = False
            self.count += changed
            self.fault = fault
            self.changed.notify_all()

    def stop(self) -> None:
        with self.changed:
            self.stopped = True
            self.changed.notify_all()

    @contextmanager
    def reading(self) -> Iterator[State]:
        """A time in which no build writes, so that nobody is served half a page. Gives the state."""
        with self.changed:
            self.changed.wait_for(lambda: not self.building, READER_WAITS)
            self.readers += 1
            state = self.state()
        try:
            yield state
        finally:
            with self.changed:
                self.readers -= 1
                self.changed.notify_all()

    def next(self, seen: Optional[State], seconds: float, is_over: Callable[[], bool]) -> State:
        """The state when it is no longer the one that was seen, or after so long, or when the wait is over: `wake` has that asked."""
        with self.changed:
            self.changed.wait_for(lambda: self.state() != seen or is_over(), seconds)
            return self.state()

    def wake(self) -> None:
        with self.changed:
            self.changed.notify_all()
