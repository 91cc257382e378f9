"""Folders that are deep or many, and files that are never read whole."""
from __future__ import annotations

import os
from pathlib import Path

from folders import lengthen
from room import Room, case


def make_chain(folder: Path, depth: int, file: str = "") -> None:
    """Makes folders `d`, each in the one before, and perhaps a file in the last; the path is longer than a call takes."""
    folder.mkdir(exist_ok=True)
    os.chdir(folder)
    for _ in range(depth):
        os.mkdir("d")
        os.chdir("d")
    if file:
        Path(file).write_text("x")
    os.chdir("/")


@case("a chain of 3,000 folders in the source, with nothing in them, is no fault and takes no time", 5, in_memory=True)
def chain_in_the_source(room: Room) -> None:
    room.make({"page.txt": "new"})
    make_chain(room.site, 3000)
    room.is_built(room.once())
    room.has("page.txt", "new")


@case("a file at the end of 3,000 folders fails the scan by name, or counts as nothing", 5, in_memory=True)
def file_at_the_end_of_a_chain(room: Room) -> None:
    room.make({"page.txt": "new"})
    make_chain(room.site, 3000, "file")
    ran = room.once()
    room.same("whether the end is one of the two", True, (ran.status, ran.lines[-1]) in ((0, "built rendered=0 reused=0 written=1 removed=0"), (3, "scan-fault")))


@case("a chain of 3,000 folders in _site is no failure, and takes no time", 5, in_memory=True)
def chain_in_the_output(room: Room) -> None:
    room.make({"page.txt": "new"})
    make_chain(room.out, 3000)
    room.is_built(room.once())
    room.has("page.txt", "new")
    room.is_built(room.once())


@case("a chain of 3,000 folders in the way of a page is removed, or the page marked", 5, in_memory=True)
def chain_in_the_way(room: Room) -> None:
    room.make({"d": "new", "e.txt": "e"})
    make_chain(room.out, 3000)
    ran = room.once()
    if ran.status == 0:
        room.has("d", "new")
    else:
        room.is_marked(ran, "d")
    room.has("e.txt", "e")


@case("a path of 1,024 bytes is read, and one of 1,025 fails the scan by name")
def longest_path(room: Room) -> None:
    within = "/".join(["f" * 203] * 5)
    room.make({f"{within}/{'x' * 4}": "new"})
    room.is_built(room.once())
    room.has(f"{within}/{'x' * 4}", "new")
    room.make({f"{within}/{'y' * 5}": "new"})
    ran = room.once()
    room.ends(ran, 3, "scan-fault")
    room.matches("standard error", f"{within}/yyyyy", ran.said)


def peak(process: int) -> int:
    """The most memory that a running program had, in KiB."""
    for line in Path(f"/proc/{process}/status").read_text().splitlines():
        if line.startswith("VmHWM:"):
            return int(line.split()[1])
    return 0


@case("20,000 folders at the end of a long path take memory by their names and not by their paths", 20, in_memory=True)
def memory_of_a_walk(room: Room) -> None:
    within = room.site / "/".join(["f" * 190] * 5)
    within.mkdir(parents=True)
    os.chdir(within)
    for number in range(20000):
        os.mkdir(f"{number:05}")
    with room.session() as session:
        room.same("the reply to scan", ["scanned 0"], session.ask("scan"))
        came = peak(session.process.pid)
    room.same(f"less than 16 MiB at the peak, of {came} KiB", True, came < 16384)


@case("past 512 MiB the sizes are asked for: 80 GB of sparse files, and one of 800 GB, end in seconds", 12)
def sizes_past_the_limit(room: Room) -> None:
    for number in range(5000):
        lengthen(room.site / f"a{number:04}", 16 << 20)
    ran = room.once()
    room.same("the replies", ["fault F3 0 a0032"], ran.lines)
    lengthen(room.site / "b", (16 << 20) + 1)
    room.same("the replies", ["fault F2 0 b"], room.once().lines)
    (room.site / "b").unlink()
    lengthen(room.site / "c", 800 * 10**9)
    room.same("the replies", ["fault F2 0 c"], room.once().lines)
