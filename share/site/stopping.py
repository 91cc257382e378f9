"""Ends a word in order when it is told to end."""
from __future__ import annotations

import signal
from contextlib import contextmanager
from types import FrameType
from typing import Iterator, NoReturn, Optional

SIGNALS = (signal.SIGINT, signal.SIGTERM, signal.SIGHUP)


class Stopped(BaseException):
    """A signal has asked for the end."""


def stop(number: int, frame: Optional[FrameType]) -> NoReturn:
    # What ends in order is not disturbed by a second signal.
    for other in SIGNALS:
        signal.signal(other, signal.SIG_IGN)
    raise Stopped


@contextmanager
def until_stopped() -> Iterator[None]:
    """What is within ends in order at Ctrl-C and SIGTERM."""
    for number in SIGNALS:
        # `nohup` has its way.
        if number != signal.SIGHUP or signal.getsignal(number) != signal.SIG_IGN:
            signal.signal(number, stop)
    try:
        yield
    except Stopped:
        pass
