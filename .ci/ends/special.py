"""Places at which there is neither a file nor a folder."""
from __future__ import annotations

import os
import socket
import stat
from functools import partial
from pathlib import Path
from typing import Callable

from room import PassedOver, Room, case, needs_root

Make = Callable[[Path], None]


def make_socket(place: Path) -> None:
    # The path of a socket is short, so it is made from its folder.
    os.chdir(place.parent)
    with socket.socket(socket.AF_UNIX) as it:
        it.bind(place.name)


def make_device(place: Path) -> None:
    """One that takes all that is written, as /dev/null."""
    needs_root()
    try:
        os.mknod(place, stat.S_IFCHR | 0o666, os.makedev(1, 3))
    except PermissionError as error:
        raise PassedOver("devices cannot be made here") from error


SPECIAL: dict[str, Make] = {"a fifo": os.mkfifo, "a socket": make_socket, "a device": make_device}


def special_at_a_page(make: Make, room: Room) -> None:
    room.make({"_config.yml": "keep_files: [kept.txt]\n", "page.txt": "new", "kept.txt": "new", "long.txt": "n" * 100000, "a/b.txt": "b", "_site/": ""})
    for path in ("page.txt", "kept.txt", "long.txt", "surplus.txt", "a"):
        make(room.out / path)
    room.is_built(room.once())
    for path in ("page.txt", "kept.txt"):
        room.has(path, "new")
    room.has("long.txt", "n" * 100000)
    room.has("a/b.txt", "b")
    room.lacks("surplus.txt")


def special_in_a_session(make: Make, room: Room) -> None:
    room.make({"page.txt": "old"})
    with room.session() as session:
        session.scans_and_builds()
        (room.out / "page.txt").unlink()
        make(room.out / "page.txt")
        session.put("page.txt", "new")
        session.builds()
        room.same("the status of the session", 0, session.end().status)
    room.has("page.txt", "new")


def special_in_the_source(make: Make, room: Room) -> None:
    room.make({"page.txt": "new"})
    make(room.site / "special")
    room.ends(room.once(), 0, "scanned 1", "built rendered=0 reused=0 written=1 removed=0")


for name, make in SPECIAL.items():
    case(f"{name} at a page's place, above one, or besides, is removed and replaced")(partial(special_at_a_page, make))
    case(f"{name} that comes to a page's place in a session is removed and replaced")(partial(special_in_a_session, make))
    case(f"{name} in the source is passed over")(partial(special_in_the_source, make))
