"""The name at which a page is written before it takes the place of the old one."""
from __future__ import annotations

import os
import re
from pathlib import Path
from typing import Callable

from room import Room, case
from watching import IN_CREATE, IN_MOVED_TO, Watch


def name_beside(room: Room) -> str:
    """The name by which pages are written beside: it comes into _site besides the pages'. Empty where there is none."""
    room.make({"a.txt": "o" * 100000, "b/c.txt": "o" * 100000})
    room.is_built(room.once())
    room.make({"a.txt": "n" * 100000, "b/c.txt": "n" * 100000})
    with Watch(room.out, IN_CREATE | IN_MOVED_TO) as watch:
        room.is_built(room.once())
        made = watch.names() - {"a.txt"}
    if len(made) != 1:
        room.differs("the names that came into _site", "one besides the pages'", sorted(made))
    return made.pop() if made else ""


@case("the name beside is one at the top of _site that no page can have, and does not stay")
def the_name_beside(room: Room) -> None:
    beside = name_beside(room)
    room.same(f"whether {beside!r} has a control character", True, bool(re.search("[\x01-\x1f\x7f]", beside)))
    room.same("the names in _site", ["a.txt", "b"], sorted(os.listdir(room.out)))


@case("the name beside has no byte below 32, which FAT and many a network disk refuse")
def name_for_other_disks(room: Room) -> None:
    beside = name_beside(room)
    room.same(f"bytes below 32 in {beside!r}", [], re.findall("[\x01-\x1f]", beside))


LEFT: dict[str, Callable[[Path], None]] = {
    "a file": lambda place: place.write_text("half a page"),
    "a link to a file outside": lambda place: place.symlink_to("../../outside/file"),
    "a link to nothing": lambda place: place.symlink_to("../../outside/nothing"),
    "a fifo": os.mkfifo,
}


@case("what stands at the name beside is removed by the next run, and no link there is followed")
def left_beside(room: Room) -> None:
    (room.outside / "file").write_text("mine")
    beside = name_beside(room)
    if not beside:
        return
    for what, make in LEFT.items():
        for text in ("n" * 100000, what * 20000):
            make(room.out / beside)
            room.make({"a.txt": text})
            room.is_built(room.once())
            room.has("a.txt", text)
            room.same(f"the names in _site, where {what} stood beside", ["a.txt", "b"], sorted(os.listdir(room.out)))
            room.same("the names outside", ["file"], os.listdir(room.outside))
            room.same("the file outside", "mine", (room.outside / "file").read_text())


@case("a folder at the name beside is removed, or told by its name")
def folder_beside(room: Room) -> None:
    beside = name_beside(room)
    if not beside:
        return
    room.make({f"_site/{beside}/e/": "", f"_site/{beside}/x": "mine", "a.txt": "m" * 100000})
    ran = room.once()
    if ran.status == 0:
        room.has("a.txt", "m" * 100000)
    else:
        room.matches("standard error", re.escape(re.sub("[\x01-\x1f\x7f]", "?", beside)), ran.said)


@case("a link that comes to the name beside in a session is not followed")
def link_beside_in_a_session(room: Room) -> None:
    (room.outside / "file").write_text("mine")
    beside = name_beside(room)
    if not beside:
        return
    with room.session() as session:
        session.scans_and_builds()
        (room.out / beside).symlink_to("../../outside/file")
        session.put("a.txt", "m" * 100000)
        replies = session.ask("build")
        room.same("whether the page is written or marked", True, replies[0].startswith("built ") or replies == ["out-fault 1", "marked a.txt"])
    room.same("the file outside", "mine", (room.outside / "file").read_text())
