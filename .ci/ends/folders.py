"""Folders of bad input: each is refused by name and line, and the output stays as it was."""
import subprocess
from pathlib import Path
from typing import Iterable

from room import Room, case

OLD = {"_site/old.html": "old"}


def expect(room: Room, status: int, replies: list[str], place: str, code: str, under: Iterable[str] = ()) -> None:
    """Runs `once`, and looks at its status, all its replies, the output, and the place and the code of its sentence."""
    ran = room.once(under=under)
    room.same("the status", status, ran.status)
    room.same("the replies", replies, ran.lines)
    room.same("standard error begins with its place", True, ran.said.startswith(f"sitebuild: {place}"))
    room.same("standard error ends with its code", True, ran.said.endswith(f" ({code})\n"))
    room.has("old.html", "old")


@case("a name that is not UTF-8 fails the scan")
def name_that_is_not_utf8(room: Room) -> None:
    room.make({**OLD, "a\udcff": "x"})
    expect(room, 3, ["scan-fault"], "", "status 3")


@case("a folder that cannot be read fails the scan")
def folder_that_cannot_be_read(room: Room) -> None:
    room.make({**OLD, "closed/a": "x"})
    (room.site / "closed").chmod(0)
    expect(room, 3, ["scan-fault"], "", "status 3", room.unprivileged)


# The reply counts the line in the body, as programs expect it; a person is told the line of the file.
@case("a fault behind front matter is told by the line of the file")
def fault_behind_front_matter(room: Room) -> None:
    room.make({**OLD, "page.html": "---\ntitle: T\n---\n\nok\n{% none %}\n"})
    expect(room, 1, ["scanned 1", "fault F11 2 page.html"], "page.html:6: ", "F11")


@case("a fault in an include is told by its line there")
def fault_in_an_include(room: Room) -> None:
    room.make({**OLD, "_includes/part.html": "---\n---\n{% none %}\n", "page.html": "---\n---\n{% include part.html %}\n"})
    expect(room, 1, ["scanned 2", "fault F11 3 _includes/part.html"], "_includes/part.html:3: ", "F11")


def lengthen(place: Path, size: int) -> None:
    """Makes a file of this size that takes no room on the disk."""
    with place.open("ab") as file:
        file.truncate(size)


# A tebibyte is never read: the file is given up one byte past its limit.
@case("a file without an end is given up at its limit")
def file_without_end(room: Room) -> None:
    room.make(OLD)
    lengthen(room.site / "big", 1 << 40)
    expect(room, 1, ["fault F2 0 big"], "big: ", "F2")


# However far a file grows while it is read, the run ends, with the fault.
@case("a file that grows while it is read is given up at its limit")
def file_that_grows(room: Room) -> None:
    room.make(OLD)
    lengthen(room.site / "big", 16777217)
    writer = subprocess.Popen("for _ in $(seq 8000); do head -c 65536 /dev/zero; done >>big", shell=True, executable="bash", cwd=room.site)
    expect(room, 1, ["fault F2 0 big"], "big: ", "F2")
    writer.kill()
