"""Standard input and output that vanish, are closed, are full, or do not block."""
from __future__ import annotations

import fcntl
import os
import signal
import subprocess
import time
from contextlib import contextmanager, suppress
from typing import Iterable, Iterator, Optional

from room import Ran, Room, case

F_SETPIPE_SZ = 1031
SCRIPT = b"scan\nbuild\nend\n"


@contextmanager
def pipe() -> Iterator[tuple[int, int]]:
    """The two ends of a pipe that holds 4 KiB; each may be closed before."""
    ends = os.pipe()
    fcntl.fcntl(ends[1], F_SETPIPE_SZ, 4096)
    try:
        yield ends
    finally:
        for end in ends:
            with suppress(OSError):
                os.close(end)


def without_a_reader(room: Room, words: Iterable[str], text: bytes = b"") -> Ran:
    """A run whose reader of the replies has gone before it begins."""
    with pipe() as (reading, writing):
        os.close(reading)
        process = room.start(words, stdin=subprocess.PIPE, stdout=writing)
        return room.ended(process, text)


@case("a vanished reader of the replies gives status 6, and the output is not touched")
def vanished_reader(room: Room) -> None:
    room.make({"page.txt": "new", "_site/page.txt": "old"})
    for words, text in ((["once"], b""), (["build"], b""), (["check"], b""), (["session"], SCRIPT), (["nonsense"], b"")):
        ran = without_a_reader(room, words, text)
        room.same(f"the status of {words[0]}", 6, ran.status)
        room.same(f"the lines of standard error of {words[0]}", 1, ran.said.count("\n"))
    room.has("page.txt", "old")


@case("a reader that vanishes in the middle of a session gives status 6")
def reader_that_vanishes(room: Room) -> None:
    room.make({"page.txt": "new"})
    with room.session() as session:
        session.scans_and_builds()
        session.process.stdout.close()
        session.process.stdin.write(b"time 1\n" * 100)
        session.process.stdin.close()
        room.same("the status", 6, session.process.wait())


@case("standard output on a full device gives status 6")
def full_output(room: Room) -> None:
    room.make({"page.txt": "new", "_site/page.txt": "old"})
    with open("/dev/full", "wb") as full:
        ran = room.ended(room.start(["once"], stdout=full))
    room.same("the status", 6, ran.status)
    room.has("page.txt", "old")


@case("a closed standard output gives status 6, and no reply comes into a file")
def closed_output(room: Room) -> None:
    room.make({"page.txt": "new", "long.txt": "n" * 100000, "_site/page.txt": "old"})
    for words in ("once", "build", "session"):
        ran = room.ended(room.start([words], ("sh", "-c", 'exec "$@" >&-', "sh"), stdin=subprocess.PIPE), SCRIPT)
        room.same(f"the status of {words}", 6, ran.status)
    room.has("page.txt", "old")
    room.same("the source", ("new", "n" * 100000), ((room.site / "page.txt").read_text(), (room.site / "long.txt").read_text()))


@case("a closed standard input gives a session status 5, and other commands do not care")
def closed_input(room: Room) -> None:
    room.make({"page.txt": "new", "long.txt": "n" * 100000})
    room.is_built(room.once(under=("sh", "-c", 'exec "$@" <&-', "sh")))
    room.has("page.txt", "new")
    room.same("the status of a session", 5, room.run("session", under=("sh", "-c", 'exec "$@" <&-', "sh")).status)


@case("with a closed standard error a run is done as ever, and no sentence comes into a file")
def closed_error(room: Room) -> None:
    closed = ("sh", "-c", 'exec "$@" 2>&-', "sh")
    room.make({"page.txt": "new", "long.txt": "n" * 100000})
    ran = room.once(under=closed)
    room.is_built(ran)
    room.make({"_config.yml": "keep_files: [a]\n", "page.txt": "newer", "a/page.txt": "new"})
    (room.out / "a").symlink_to("../../outside")
    ran = room.once(under=closed)
    room.same("the status", 4, ran.status)
    room.has("page.txt", "newer")
    room.has("long.txt", "n" * 100000)
    room.same("the names outside", [], os.listdir(room.outside))


def seconds_of(process: int) -> float:
    """The processor seconds of a running program."""
    with open(f"/proc/{process}/stat", encoding="ascii") as file:
        fields = file.read().rsplit(")", 1)[1].split()
    return (int(fields[11]) + int(fields[12])) / os.sysconf("SC_CLK_TCK")


@case("a standard input that does not block is waited for, without work")
def input_that_does_not_block(room: Room) -> None:
    room.make({"page.txt": "new"})
    waited = 0.0
    with pipe() as (reading, writing):
        os.set_blocking(reading, False)
        process = room.start(["session"], stdin=reading)
        os.close(reading)
        time.sleep(0.3)
        with suppress(BrokenPipeError):
            os.write(writing, b"sc")
            time.sleep(0.2)
            # Whoever stops a program from the keyboard and lets it go on does not end it.
            for number in (signal.SIGSTOP, signal.SIGCONT):
                process.send_signal(number)
                time.sleep(0.1)
            waited = seconds_of(process.pid)
            os.write(writing, b"an\nbuild\nput page.txt 5\nne")
            time.sleep(0.1)
            os.write(writing, b"werbuild\n")
        os.close(writing)
        ran = room.ended(process)
    room.same("less than 0.2 processor seconds while it waited", True, waited < 0.2)
    room.same("the status", 0, ran.status)
    room.same("the replies", ["scanned 1", "built rendered=0 reused=0 written=1 removed=0", "ok", "built rendered=0 reused=0 written=1 removed=0"], ran.lines)
    room.has("page.txt", "newer")


def slow_reader(room: Room, script: bytes, is_read: bool) -> tuple[Optional[int], bytes, float]:
    """A session whose output does not block and is full for a while; then it is read, or its reader vanishes. Its status, what was read, and the seconds that it worked."""
    with pipe() as (reading, writing):
        os.set_blocking(writing, False)
        (room.top / "script").write_bytes(script)
        with (room.top / "script").open("rb") as text:
            process = room.start(["session"], stdin=text, stdout=writing)
        os.close(writing)
        time.sleep(0.7)
        worked = seconds_of(process.pid) if process.poll() is None else 0.0
        room.same("the status while the output is full", None, process.poll())
        got = b""
        if is_read:
            while True:
                part = os.read(reading, 65536)
                if not part:
                    break
                got += part
        os.close(reading)
        said = process.communicate()[1]
        room.is_plain(said.decode())
        return process.returncode, got, worked


@case("a standard output that does not block is waited for when it is full, without work")
def output_that_does_not_block(room: Room) -> None:
    status, got, worked = slow_reader(room, b"time 1\n" * 6000, True)
    room.same("less than 0.5 processor seconds while it waited", True, worked < 0.5)
    room.same("the status", 0, status)
    room.same("the replies", True, got == b"ok\n" * 6000)


@case("a reader that vanishes while it is waited for gives status 6")
def reader_that_vanishes_while_waited_for(room: Room) -> None:
    status, _, _ = slow_reader(room, b"time 1\n" * 6000, False)
    room.same("the status", 6, status)


@case("a standard output that does not block gets all replies of a build")
def output_of_a_build_that_does_not_block(room: Room) -> None:
    room.make({f"{number:03}.html": "---\n---\nx" for number in range(320)})
    with pipe() as (reading, writing):
        os.set_blocking(writing, False)
        process = room.start(["build", "--why"], stdout=writing)
        os.close(writing)
        time.sleep(0.5)
        with open(reading, "rb", closefd=False) as file:
            got = file.read()
        process.communicate()
    room.same("the status", 0, process.returncode)
    room.same("the number of replies", 322, got.count(b"\n"))
