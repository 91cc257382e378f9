"""Calls another program: within a limit of time and of output, and so that nothing of it outlives the call, or this process."""
from __future__ import annotations

import os
import selectors
import shutil
import signal
import subprocess
import time
from dataclasses import dataclass
from pathlib import Path
from typing import IO, Optional, Sequence, Union

SECONDS = 60.0
MOST_SAID = 64 * 1024 * 1024
# What was killed is gone after so many seconds, unless the system itself holds it.
PATIENCE = 5.0
# The first and the longest wait between two looks whether a program has ended that has closed its output.
SHORTEST_WAIT = 0.0005
LONGEST_WAIT = 0.05
PIECE = 65536

# Becomes the program after a line on standard input, and never when that is closed before.
WAITING = 'read -r _ && exec "$@"'
# Reads the number of a group. Ends the group unless a second line comes: the input is closed when its other end has ended, in whatever way.
GUARD = 'read -r group && ! read -r _ && kill -KILL "-$group"'


class NotDone(Exception):
    """A call was not done; says why in a sentence."""


class NotStarted(NotDone):
    """The program is not there, or it may not be run."""


class TookTooLong(NotDone):
    """The time was over, and the program was ended."""


class SaidTooMuch(NotDone):
    """The program wrote without an end, and was ended."""


@dataclass(frozen=True)
class Called:
    """How a program has ended, and what it has written. The status is negative when a signal has ended it: its number with a minus."""

    status: int
    stdout: bytes
    stderr: bytes


def call(words: Sequence[Union[str, Path]], folder: Path, given: bytes = b"", seconds: float = SECONDS, most: int = MOST_SAID) -> Called:
    """Runs a program in a folder, with some bytes on its standard input, and waits for its end.

    The program runs in a process group of its own, so Ctrl-C in a terminal does not reach it. With the call ends all that is in the group:
    what the program has left running too, and also when this process is ended by a signal, even by one that it cannot catch.

    Raises NotStarted when there is no such program or folder, TookTooLong after so many seconds, and SaidTooMuch when one of its outputs
    has more than so many bytes.
    """
    command = [os.fspath(word) for word in words]
    name = Path(command[0]).name
    if shutil.which(command[0]) is None:
        raise NotStarted(f"{name} cannot be started: there is no such program, or it may not be run")
    try:
        guard = start(["bash", "-p", "-c", GUARD], Path("/"), subprocess.DEVNULL)
    except OSError as error:
        raise NotStarted(f"{name} cannot be started ({error.strerror})") from error
    try:
        return call_guarded(command, folder, given, Limits(name, seconds, most), guard)
    except OSError as error:
        raise NotStarted(f"{name} cannot be started in {folder} ({error.strerror})") from error
    finally:
        release(guard)


def start(command: list[str], folder: Path, output: int) -> subprocess.Popen[bytes]:
    """Starts a process in a session of its own, whose input can be written to."""
    return subprocess.Popen(command, cwd=folder, stdin=subprocess.PIPE, stdout=output, stderr=output, start_new_session=True)


def piped(stream: Optional[IO[bytes]]) -> IO[bytes]:
    """A stream of a process that was started with a pipe there."""
    if stream is None:
        raise ValueError("the process was started without a pipe there")
    return stream


def tell(guard: subprocess.Popen[bytes], line: bytes) -> None:
    try:
        os.write(piped(guard.stdin).fileno(), line)
    except BrokenPipeError:
        # Somebody has ended it.
        pass


def release(guard: subprocess.Popen[bytes]) -> None:
    """Has the guard end, and end nothing."""
    tell(guard, b"\n\n")
    piped(guard.stdin).close()
    guard.wait()


@dataclass(frozen=True)
class Limits:
    """What a program may take, by its name."""

    name: str
    seconds: float
    most: int

    def too_long(self) -> TookTooLong:
        return TookTooLong(f"{self.name} was ended after {self.seconds:g} seconds: it takes too long")

    def too_much(self) -> SaidTooMuch:
        return SaidTooMuch(f"{self.name} was ended: it writes more than {self.most:,} bytes")


def call_guarded(command: list[str], folder: Path, given: bytes, limits: Limits, guard: subprocess.Popen[bytes]) -> Called:
    """A call whose group the guard ends if this process ends first."""
    process = start(["bash", "-p", "-c", WAITING, "bash", *command], folder, subprocess.PIPE)
    try:
        tell(guard, b"%d\n" % process.pid)
        with Exchange(process, b"\n" + given, limits) as exchange:
            exchange.until_end()
            end_group(process)
            exchange.rest()
            said = exchange.said
    finally:
        end_group(process)
        # Until it is waited for, its number is that of no other process, so the guard cannot end another group.
        tell(guard, b"\n")
        for stream in (process.stdin, process.stdout, process.stderr):
            piped(stream).close()
        status = wait(process, limits)
    return Called(status, *map(bytes, said))


def end_group(process: subprocess.Popen[bytes]) -> None:
    try:
        os.killpg(process.pid, signal.SIGKILL)
    except ProcessLookupError:
        pass


def wait(process: subprocess.Popen[bytes], limits: Limits) -> int:
    try:
        return process.wait(PATIENCE)
    except subprocess.TimeoutExpired:
        raise limits.too_long() from None


def has_ended(process: subprocess.Popen[bytes]) -> bool:
    """Whether a process has ended. It is not waited for."""
    try:
        return os.waitid(os.P_PID, process.pid, os.WEXITED | os.WNOHANG | os.WNOWAIT) is not None
    except ChildProcessError:
        return True


class Exchange:
    """What is written to a process, and what is read from it."""

    def __init__(self, process: subprocess.Popen[bytes], given: bytes, limits: Limits):
        self.process = process
        self.stdin, stdout, stderr = map(piped, (process.stdin, process.stdout, process.stderr))
        self.given = memoryview(given)
        self.limits = limits
        self.end = time.monotonic() + limits.seconds
        # What it has written on standard output, and on standard error.
        self.said = (bytearray(), bytearray())
        self.selector = selectors.DefaultSelector()
        # What is read from a stream is added to the bytes that it is registered with.
        self.enter(self.stdin, selectors.EVENT_WRITE, None)
        self.enter(stdout, selectors.EVENT_READ, self.said[0])
        self.enter(stderr, selectors.EVENT_READ, self.said[1])

    def enter(self, stream: IO[bytes], events: int, said: Optional[bytearray]) -> None:
        os.set_blocking(stream.fileno(), False)
        self.selector.register(stream, events, (stream, said))

    def __enter__(self) -> Exchange:
        return self

    def __exit__(self, *what: object) -> None:
        self.selector.close()

    def until_end(self) -> None:
        """Goes on until the process has ended."""
        pause = SHORTEST_WAIT
        while not has_ended(self.process):
            if time.monotonic() > self.end:
                raise self.limits.too_long()
            if self.selector.get_map():
                self.step(LONGEST_WAIT)
            else:
                time.sleep(pause)
                pause = min(2 * pause, LONGEST_WAIT)

    def rest(self) -> None:
        """Reads what is left. A process that has left the group may hold its output open, and is not waited for."""
        self.leave(self.stdin)
        while self.selector.get_map() and self.step(LONGEST_WAIT):
            pass

    def step(self, seconds: float) -> bool:
        """Does what can be done within so many seconds; whether something could."""
        ready = self.selector.select(seconds)
        for key, _ in ready:
            stream, said = key.data
            if said is None:
                self.give()
            else:
                self.take(stream, said)
        return bool(ready)

    def give(self) -> None:
        try:
            self.given = self.given[os.write(self.stdin.fileno(), self.given[:PIECE]) :]
        except BlockingIOError:
            return
        except BrokenPipeError:
            # It does not read any further, as it may.
            self.given = self.given[:0]
        if not self.given:
            self.leave(self.stdin)
            self.stdin.close()

    def take(self, stream: IO[bytes], said: bytearray) -> None:
        piece = os.read(stream.fileno(), PIECE)
        if not piece:
            self.leave(stream)
        said += piece
        if len(said) > self.limits.most:
            raise self.limits.too_much()

    def leave(self, stream: IO[bytes]) -> None:
        if stream in {key.fileobj for key in self.selector.get_map().values()}:
            self.selector.unregister(stream)
