"""Names that vanish while a list is made are passed over, as if they had gone a moment earlier."""
from __future__ import annotations

import os
import subprocess
import sys
import time
from functools import partial
from pathlib import Path
from typing import Iterable

from room import Ran, Room, case, meddling, tree

# Makes and removes names in a folder and in one below it, as fast as it can.
CHURN = """
import contextlib, os, sys
kind = sys.argv[1]
def files(name):
    os.close(os.open(name, os.O_WRONLY | os.O_CREAT))
    os.unlink(name)
def folders(name):
    os.mkdir(name)
    os.rmdir(name)
def links(name):
    os.symlink('nowhere', name)
    os.unlink(name)
turn = {'files': files, 'folders': folders, 'links': links}[kind]
while True:
    for number in range(30):
        for folder in ('', 'deep/', 'deep/er/'):
            # The program may be there first, and takes empty folders away.
            with contextlib.suppress(OSError):
                os.makedirs('deep/er', exist_ok=True)
                turn(f'{folder}{kind}{number}')
"""


def churned(room: Room, folder: Path, kinds: Iterable[str], seconds: float) -> Iterable[Ran]:
    """Runs `once` again and again while names are made and removed in a folder; before each run an old file is put into the output."""
    folder.mkdir(exist_ok=True)
    churning = [subprocess.Popen([sys.executable, "-c", CHURN, kind], cwd=folder) for kind in kinds]
    until = time.monotonic() + seconds
    try:
        while time.monotonic() < until:
            room.make({"_site/stale.txt": "old"})
            yield room.once()
    finally:
        for it in churning:
            it.kill()
            it.wait()


def all_are_built(room: Room, runs: Iterable[Ran]) -> None:
    """Each of the runs is done, and leaves no old file. The first that is not so is told, with the count of all."""
    bad, count = [], 0
    for ran in runs:
        count += 1
        stale = os.path.lexists(room.out / "stale.txt")
        if ran.status != 0 or stale:
            bad.append((ran, stale))
    if bad:
        (ran, stale) = bad[0]
        room.differs(f"{len(bad)} of {count} runs", "status 0, and no old file", f"{ran}, and {'the' if stale else 'no'} old file")
    room.same("whether there were runs", True, count > 0)


@case("names that vanish while _site is listed are passed over, and no old file stays", 15, in_memory=True)
def names_vanish_in_the_output(room: Room) -> None:
    room.make({"page.txt": "new", "a/b.txt": "b"})
    all_are_built(room, churned(room, room.out, ("files", "folders", "links"), 2))
    room.has("a/b.txt", "b")


@case("folders and links that vanish while the source is listed are passed over", 15, in_memory=True)
def names_vanish_in_the_source(room: Room) -> None:
    room.make({"page.txt": "new", "a/b.txt": "b"})
    all_are_built(room, churned(room, room.site / "busy", ("folders", "links"), 1.5))
    room.has("a/b.txt", "b")


@case("folders that vanish at the top of the source are passed over", 15, in_memory=True)
def names_vanish_at_the_top(room: Room) -> None:
    room.make({"page.txt": "new"})
    all_are_built(room, churned(room, room.site, ("folders", "links"), 1))


# ---- one name, that goes in the worst moment


def vanishes(moment: str, path: str, room: Room) -> None:
    """A name that vanishes just before the program asks what it is, or opens it, is passed over; all else is as ever."""
    gone = {"LD_PRELOAD": str(meddling(room)), moment: path.rstrip("/")}
    room.make({"page.txt": "new", "a/b.txt": "b", "_site/stale.txt": "old", "_site/a/stale.txt": "old", path: "" if path.endswith("/") else "x"})
    room.is_built(room.once(env={**os.environ, **gone}))
    room.same(f"whether {path} has vanished", False, os.path.lexists(room.site / path))
    room.same("what is in _site", {"page.txt", "a", "a/b.txt"}, set(tree(room.out)))


LOOK, OPEN = "GONE_AT_LOOK", "GONE_AT_OPEN"
for name, moment, path in (
    ("a file at the top of the source vanishes before it is looked at", LOOK, "x.txt"),
    ("a file in a folder of the source vanishes before it is looked at", LOOK, "busy/x.txt"),
    ("a folder of the source vanishes before it is looked at", LOOK, "busy/e/"),
    ("a folder of the source vanishes before it is listed", OPEN, "busy/e/"),
    ("a file at the top of _site vanishes before it is looked at", LOOK, "_site/x.txt"),
    ("a file in a folder of _site vanishes before it is looked at", LOOK, "_site/a/x.txt"),
    ("a folder of _site vanishes before it is looked at", LOOK, "_site/e/"),
    ("a folder of _site vanishes before it is listed", OPEN, "_site/e/"),
):
    case(f"{name}, and is passed over", in_memory=True)(partial(vanishes, moment, path))
