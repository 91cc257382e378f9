"""Disks that are full, files that nobody may change, and other disks within _site. They need root."""
from __future__ import annotations

import contextlib
import ctypes
import os
import subprocess
from pathlib import Path
from typing import Iterator

from room import PassedOver, Room, case, needs_root

CLONE_NEWNS = 0x20000


def own_mounts() -> None:
    """From here on what is mounted is seen by this case alone, and goes with it."""
    needs_root()
    libc = ctypes.CDLL(None, use_errno=True)
    if libc.unshare(CLONE_NEWNS) != 0:
        raise PassedOver("mounting is not permitted here")
    command("mount", "--make-rprivate", "/")


def command(*words: object) -> None:
    ran = subprocess.run([str(word) for word in words], stdout=subprocess.PIPE, stderr=subprocess.STDOUT)
    if ran.returncode != 0:
        raise PassedOver(f"{words[0]} is not permitted here")


def mount_disk(folder: Path, size: str) -> None:
    """Mounts a disk of this size, which all may write to."""
    folder.mkdir(parents=True, exist_ok=True)
    command("mount", "-t", "tmpfs", "-o", f"size={size},mode=777", "none", folder)


def fill(place: Path, leave: int) -> None:
    """Fills the disk of this place with one file, but for so many bytes."""
    room = os.statvfs(place.parent)
    place.write_bytes(b"f" * (room.f_bavail * room.f_frsize - leave))


@case("on a full disk the old pages stay whole, their paths are marked, and nothing is left beside")
def full_disk(room: Room) -> None:
    own_mounts()
    mount_disk(room.out, "256k")
    room.make({"_config.yml": "keep_files: [filler]\n", "long.txt": "o" * 80000, "grows.txt": "old", "short.txt": "old"})
    room.is_built(room.once())
    fill(room.out / "filler", 8192)
    room.make({"long.txt": "n" * 80000, "grows.txt": "n" * 20000, "short.txt": "new", "fresh.txt": "n" * 20000, "tiny.txt": "new"})
    room.is_marked(room.once(), "fresh.txt", "grows.txt", "long.txt")
    for path, text in {"long.txt": "o" * 80000, "grows.txt": "old", "short.txt": "new", "tiny.txt": "new"}.items():
        room.has(path, text)
    room.lacks("fresh.txt")
    room.same("the names in _site", ["filler", "grows.txt", "long.txt", "short.txt", "tiny.txt"], sorted(os.listdir(room.out)))
    (room.out / "filler").unlink()
    room.is_built(room.once())
    for path in ("long.txt", "grows.txt", "fresh.txt"):
        room.has(path, (room.site / path).read_text())


@case("in a session on a full disk a marked path is written when there is room, with nothing besides")
def full_disk_in_a_session(room: Room) -> None:
    own_mounts()
    mount_disk(room.out, "256k")
    room.make({"_config.yml": "keep_files: [filler]\n", "long.txt": "o" * 80000, "short.txt": "old"})
    with room.session() as session:
        session.scans_and_builds()
        fill(room.out / "filler", 0)
        session.put("long.txt", "n" * 80000)
        session.put("short.txt", "new")
        session.marks("long.txt")
        room.has("long.txt", "o" * 80000)
        room.has("short.txt", "new")
        (room.out / "filler").unlink()
        room.same("the reply to build", ["built rendered=0 reused=0 written=1 removed=0"], session.ask("build"))
    room.has("long.txt", "n" * 80000)


@case("an old page that is a sparse file, on a full disk, is not written in part")
def sparse_page_on_a_full_disk(room: Room) -> None:
    own_mounts()
    mount_disk(room.out, "256k")
    room.make({"_config.yml": "keep_files: [filler]\n", "page.txt": "n" * 60000})
    with (room.out / "page.txt").open("wb") as file:
        file.truncate(60000)
    fill(room.out / "filler", 16384)
    room.is_marked(room.once(), "page.txt")
    room.has("page.txt", "\0" * 60000)


@case("pages on another disk within _site are written, and its folder is no failure")
def other_disk_within(room: Room) -> None:
    own_mounts()
    mount_disk(room.out / "m", "1m")
    mount_disk(room.out / "empty", "1m")
    room.make({"m/long.txt": "o" * 80000, "m/page.txt": "old", "m/more.txt": "old"})
    room.is_built(room.once())
    room.make({"m/long.txt": "n" * 80000, "m/page.txt": "new", "m/more.txt": "n" * 9000})
    room.is_built(room.once())
    for path in ("m/long.txt", "m/page.txt", "m/more.txt"):
        room.has(path, (room.site / path).read_text())


@case("a page on another disk within _site, that has a name outside too, is replaced and not written through")
def other_disk_with_hard_links(room: Room) -> None:
    own_mounts()
    disk = room.top / "disk"
    mount_disk(disk, "1m")
    for folder in (disk / "m", room.out / "m"):
        folder.mkdir(parents=True)
    command("mount", "--bind", disk / "m", room.out / "m")
    for name in ("page.txt", "long.txt"):
        (disk / name).write_text("mine")
        os.link(disk / name, disk / "m" / name)
    room.make({"m/page.txt": "new!", "m/long.txt": "n" * 80000})
    room.is_built(room.once())
    room.has("m/page.txt", "new!")
    room.has("m/long.txt", "n" * 80000)
    room.same("the names outside", ["mine", "mine"], [(disk / name).read_text() for name in ("page.txt", "long.txt")])


@case("_site on a disk that cannot be written: every path is marked, and what is right is no failure")
def disk_that_cannot_be_written(room: Room) -> None:
    own_mounts()
    mount_disk(room.out, "1m")
    room.make({"page.txt": "old", "same.txt": "same"})
    room.is_built(room.once())
    command("mount", "-o", "remount,ro", room.out)
    room.is_built(room.once())
    room.make({"page.txt": "new", "fresh.txt": "new"})
    room.is_marked(room.once(), "fresh.txt", "page.txt")
    room.has("page.txt", "old")


@contextlib.contextmanager
def unchangeable(*places: Path) -> Iterator[None]:
    """Files that not even root may change, as long as this lasts."""
    needs_root()
    try:
        command("chattr", "+i", "--", *places)
        yield
    finally:
        subprocess.run(["chattr", "-i", "--", *places], stderr=subprocess.DEVNULL)


@case("files that nobody may change are marked, but for one that has its bytes already")
def immutable_files(room: Room) -> None:
    room.make({"page.txt": "old", "long.txt": "o" * 100000, "same.txt": "same", "gone.txt": "old", "b.txt": "b"})
    room.is_built(room.once())
    room.make({"page.txt": "new", "long.txt": "n" * 100000, "b.txt": "new"})
    (room.site / "gone.txt").unlink()
    with unchangeable(*(room.out / path for path in ("page.txt", "long.txt", "same.txt", "gone.txt"))):
        room.is_marked(room.once(), "gone.txt", "long.txt", "page.txt")
        for path, text in {"page.txt": "old", "long.txt": "o" * 100000, "gone.txt": "old", "b.txt": "new"}.items():
            room.has(path, text)
        room.same("the number of names in _site", 5, len(os.listdir(room.out)))
    room.is_built(room.once())
    room.has("page.txt", "new")
