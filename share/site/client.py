"""The lines of a running `sitebuild session`, and its replies: what everybody who starts one has in common."""
from __future__ import annotations

import os
import select
import subprocess
from collections import deque
from pathlib import Path
from typing import Mapping, Optional, Sequence, Union

from calling import piped
from words import shown

# How long a session may take to end after it was told to.
PATIENCE = 5.0
PIECE = 1 << 16


class Ended(Exception):
    """The program has ended, or has not done what it was told; says how."""


def begin(
    program: Union[str, Path],
    folder: Union[str, Path],
    *options: str,
    under: Sequence[str] = (),
    environment: Optional[Mapping[str, str]] = None,
    stderr: int = subprocess.DEVNULL,
    own_group: bool = False,
) -> subprocess.Popen[bytes]:
    """Starts a session of the program in a folder, with these options of its own.

    The words `under` run it, where there are any. The environment is that of this process unless one is given. In a group of its own
    Ctrl-C in a terminal does not reach it. Raises OSError when it cannot be started.
    """
    return subprocess.Popen(
        [*under, str(program), "session", *options],
        cwd=folder, env=environment, stdin=subprocess.PIPE, stdout=subprocess.PIPE, stderr=stderr, start_new_session=own_group,
    )


def put_head(path: Union[str, bytes], size: int) -> bytes:
    """The line that announces so many bytes of a file, which come after it."""
    return b"put %s %d\n" % (os.fsencode(path), size)


def put_lines(files: Mapping[str, bytes] | Mapping[bytes, bytes]) -> bytes:
    """The lines that put files, each with its bytes."""
    return b"".join(put_head(path, len(data)) + data for path, data in files.items())


def delete_line(path: Union[str, bytes]) -> bytes:
    return b"delete %s\n" % os.fsencode(path)


class Client:
    """What is given to one session, and what it replies. Each call raises Ended when the session has ended, or does not reply in time."""

    def __init__(self, process: subprocess.Popen[bytes], seconds: Optional[float] = None, errors: str = "replace"):
        """Takes a process that `begin` has started.

        A reply may take so many seconds, if that is given. Bytes that are no UTF-8 are read as `bytes.decode` does with these `errors`.
        """
        self.process = process
        self.seconds = seconds
        self.errors = errors
        # The files of its standard input and output.
        self.given, self.said = piped(process.stdin).fileno(), piped(process.stdout).fileno()
        # What the pipe does not take at once is written while replies are read.
        os.set_blocking(self.given, False)
        # The lines that were read and not taken yet, and the pieces of the next one: it may be long, so they are joined once.
        self.heard: deque[bytes] = deque()
        self.rest: list[bytes] = []

    def fileno(self) -> int:
        """Between replies, this can be read when the program has ended."""
        return self.said

    def ask(self, line: bytes) -> str:
        """The first line of the reply to a line."""
        self.give(line)
        return self.hear()

    def ask_all(self, line: bytes) -> list[str]:
        """All lines of the reply to a line: those that tell why come first, and paths that could not be written or removed, or broken links, last."""
        replies = [self.ask(line)]
        while replies[-1].startswith("why "):
            replies.append(self.hear())
        count = int(replies[-1].split()[1]) if replies[-1].startswith(("out-fault ", "links ")) else 0
        return replies + [self.hear() for _ in range(count)]

    def put(self, path: Union[str, bytes], data: bytes) -> None:
        self.done(put_head(path, len(data)) + data)

    def put_all(self, files: Mapping[str, bytes] | Mapping[bytes, bytes]) -> None:
        """Puts files. All lines are given before the first reply is asked for, so that nobody waits for each."""
        self.give(put_lines(files))
        for _ in files:
            self.expect_done(self.hear())

    def delete(self, path: Union[str, bytes]) -> None:
        self.done(delete_line(path))

    def done(self, line: bytes) -> None:
        """Gives a line that changes what the session holds."""
        self.expect_done(self.ask(line))

    def expect_done(self, reply: str) -> None:
        """Raises Ended unless this is the reply to a line that was done."""
        if reply not in ("ok", "absent"):
            raise Ended(self.how_it_ended() if reply.startswith("script ") else f"the program replied {shown(reply)}")

    def give(self, lines: bytes) -> None:
        """Gives lines. Replies are read meanwhile: a program that cannot write them reads no further."""
        left = memoryview(lines)
        while left:
            try:
                left = left[os.write(self.given, left) :]
            except BlockingIOError:
                replies, _, _ = ready = select.select([self.said], [self.given], [], self.seconds)
                if not any(ready):
                    raise self.too_late() from None
                if replies:
                    self.take()
            except BrokenPipeError as error:
                raise Ended(self.how_it_ended()) from error

    def hear(self) -> str:
        """The next line of a reply."""
        if not self.heard:
            self.wait()
        return self.heard.popleft().decode(errors=self.errors)

    def wait(self) -> None:
        """Waits for a whole line."""
        while not self.heard:
            if self.seconds is not None and not select.select([self.said], [], [], self.seconds)[0]:
                raise self.too_late()
            self.take()

    def take(self) -> None:
        """Reads what there is."""
        piece = os.read(self.said, PIECE)
        if not piece:
            raise Ended(self.how_it_ended())
        first, *others = piece.split(b"\n")
        self.rest.append(first)
        if others:
            self.heard.append(b"".join(self.rest))
            self.heard.extend(others[:-1])
            self.rest = others[-1:]

    def too_late(self) -> Ended:
        return Ended(f"the program has not replied within {self.seconds:g} seconds")

    def how_it_ended(self) -> str:
        """A sentence about the process, which has closed its standard output."""
        try:
            status = self.process.wait(PATIENCE)
        except subprocess.TimeoutExpired:
            return "the program has said something unasked"
        said = self.process.stderr.read().decode(errors="replace").strip().splitlines() if self.process.stderr else []
        if said:
            return f"the program has ended: {shown(said[0])}"
        return f"the program was ended by signal {-status}" if status < 0 else f"the program has ended with status {status}"

    def close(self) -> None:
        """Ends the process. A build that is under way is finished first: a kill could leave half a page."""
        for seconds, then in ((PATIENCE, self.process.terminate), (1.0, self.process.kill), (PATIENCE, self.process.poll)):
            try:
                # Closes its input, and reads what it still says, so that it is not held up by that.
                self.process.communicate(timeout=seconds)
                break
            except subprocess.TimeoutExpired:
                then()

    def kill(self) -> None:
        """Ends the process at once."""
        self.process.kill()
        self.process.communicate()
