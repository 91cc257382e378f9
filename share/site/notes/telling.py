"""Has the notes of a site made in a process of their own: they hold up nothing, and whatever they meet ends nothing but them."""
from __future__ import annotations

import contextlib
import json
import os
import select
import signal
import sys
import threading
import time
from pathlib import Path
from typing import TYPE_CHECKING, NoReturn, Optional

from words import shown

if TYPE_CHECKING:
    from notes import making

# The notes have so many seconds, and their process so many more to say them and to end.
SECONDS = 1.0
PATIENCE = 2.0
CUT = "not all notes stood within a second; `site check` makes all of them"
NOT_KNOWN = "what else there is to say of this site is not known"
# The orders: to begin; that the time begins to run; whether a check has told a fault.
BEGIN, LIMIT, CLEAN, FAULTY = b"b", b"l", b"c", b"f"
ENDS = (signal.SIGINT, signal.SIGTERM, signal.SIGHUP, signal.SIGALRM)


class Over(BaseException):
    """The time is over, or the end was asked for."""


class Telling:
    """The process that makes the notes of one site. It waits for the order to begin, and ends when this process does.

    It is a fork of this process, which may have no other thread then.
    """

    def __init__(self, folder: Path, program: str):
        sys.stdout.flush()
        sys.stderr.flush()
        orders, self.orders = os.pipe()
        self.said, said = os.pipe()
        self.process = -1
        self.why = ""
        try:
            self.process = os.fork()
        except OSError as error:
            self.why = f"no process can be started ({error.strerror})"
        if self.process == 0:
            os.close(self.orders)
            os.close(self.said)
            hold_no_streams()
            Maker(folder, program, orders, said).run()
        os.close(orders)
        os.close(said)

    def begin(self) -> None:
        self.order(BEGIN)

    def lines(self, faulty: bool, limited: bool) -> list[str]:
        """The notes, as a terminal may have them: within a second if they are limited, and with a line that says so when they were cut.

        Further faults are looked for where a check has told one.
        """
        self.order((LIMIT if limited else b"") + (FAULTY if faulty else CLEAN))
        said = self.hear(time.monotonic() + SECONDS + PATIENCE if limited else None)
        self.close()
        try:
            return [shown(line) for line in json.loads(said)]
        except ValueError:
            return [f"{NOT_KNOWN}: {self.why or 'the process that looks for it was ended'}"]

    def order(self, what: bytes) -> None:
        # What has ended takes none.
        with contextlib.suppress(OSError):
            os.write(self.orders, what)

    def hear(self, end: Optional[float]) -> bytes:
        """All that the process says until it closes its end, or until this moment."""
        said = bytearray()
        while select.select([self.said], [], [], None if end is None else max(end - time.monotonic(), 0))[0]:
            piece = os.read(self.said, 1 << 16)
            if not piece:
                break
            said += piece
        return bytes(said)

    def end(self) -> None:
        """Tells the process to end, and waits for nothing."""
        orders, self.orders = self.orders, -1
        if orders >= 0:
            os.close(orders)

    def close(self) -> None:
        """Ends the process, if it has not ended."""
        self.end()
        said, self.said = self.said, -1
        if said >= 0:
            os.close(said)
        end = time.monotonic() + PATIENCE
        while self.process > 0 and os.waitpid(self.process, os.WNOHANG)[0] == 0:
            if time.monotonic() > end:
                os.kill(self.process, signal.SIGKILL)
                os.waitpid(self.process, 0)
                break
            time.sleep(0.005)
        self.process = -1


def hold_no_streams() -> None:
    """Lets go of the streams of the other process: whoever reads them waits for nothing here."""
    nothing = os.open(os.devnull, os.O_RDWR)
    for number in range(3):
        os.dup2(nothing, number)


class Maker:
    """What the forked process does."""

    def __init__(self, folder: Path, program: str, orders: int, out: int):
        self.folder, self.program = folder, program
        self.orders, self.out = orders, out
        self.begun, self.known = threading.Event(), threading.Event()
        self.faulty = False
        # What was found up to now, once something is looked for.
        self.found: Optional[making.Said] = None

    def run(self) -> NoReturn:
        """Makes the notes, says them, and ends."""
        try:
            for number in ENDS:
                signal.signal(number, self.stop)
            threading.Thread(target=self.follow, daemon=True).start()
            self.begun.wait()
            self.make()
        except BaseException as error:
            with contextlib.suppress(BaseException):
                self.say([] if isinstance(error, Over) else [f"{NOT_KNOWN}: {str(error) or type(error).__name__}"])
        finally:
            os._exit(0)

    def make(self) -> None:
        # Each word that makes notes starts without these, and the fork alone reads them.
        import site_files
        from notes import making

        # Otherwise the program may find its files while it reads the site.
        site_files.scratch_outside(self.folder)
        found = self.found = making.Said()
        making.look(found, self.folder, self.program, self.has_fault)
        self.say([])

    def has_fault(self) -> bool:
        """Whether a check has told a fault. Waits until that is known."""
        self.known.wait()
        return self.faulty

    def say(self, more: list[str]) -> None:
        """Says what was found, and these lines, once."""
        out, self.out = self.out, -1
        if out >= 0:
            left = memoryview(json.dumps([*(self.found.lines() if self.found else []), *more]).encode())
            while left:
                left = left[os.write(out, left) :]
            os.close(out)

    def stop(self, number: int, frame: object) -> None:
        if number == signal.SIGALRM and self.out < 0:
            # It is being said.
            return
        # What ends in order is not disturbed by another signal.
        for other in ENDS:
            signal.signal(other, signal.SIG_IGN)
        if number == signal.SIGALRM:
            # At once, since what ends in order may take a moment.
            self.say([CUT])
        raise Over

    def follow(self) -> None:
        """Takes the orders. The end of the other process is one to end."""
        while order := os.read(self.orders, 1):
            if order == BEGIN:
                self.begun.set()
            elif order == LIMIT:
                signal.setitimer(signal.ITIMER_REAL, SECONDS)
            else:
                self.faulty = order == FAULTY
                self.known.set()
        os.kill(os.getpid(), signal.SIGTERM)
