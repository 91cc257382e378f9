"""Writes: what is right is left alone, and what differs is never cut short."""
from __future__ import annotations

import subprocess
import threading
import time

from folders import lengthen
from room import Room, case

BLOCK = 4096
# The longest page that is written over the old one.
IN_PLACE = 64 * 1024


def stands(room: Room, path: str) -> tuple[int, int, int]:
    """Which file stands there, and its times of change."""
    there = (room.out / path).lstat()
    return there.st_ino, there.st_mtime_ns, there.st_ctime_ns


# ---- the same bytes


@case("a file that has the page's bytes already is left alone, and is counted as written")
def same_bytes(room: Room) -> None:
    texts = {"a.txt": "a", "empty.txt": "", "long.txt": "n" * 100000, "b/c.txt": "c" * 5000}
    room.make({**texts, "page.html": "---\n---\n{{ 1 | plus: 1 }}\n"})
    room.is_built(room.once())
    before = {path: stands(room, path) for path in (*texts, "page.html")}
    for words in (("once",), ("build", "--jobs", "2")):
        room.ends(room.run(*words), 0, "scanned 5", "built rendered=1 reused=0 written=5 removed=0")
    with room.session() as session:
        session.scans_and_builds()
        session.put("a.txt", "a")
        session.builds()
    for path, was in before.items():
        room.same(f"_site/{path}, its inode and times", was, stands(room, path))


@case("a page that cannot be written, but has its bytes already, is no failure")
def same_bytes_without_rights(room: Room) -> None:
    room.make({"page.txt": "same", "long.txt": "n" * 100000, "_site/page.txt": "same", "_site/long.txt": "n" * 100000})
    room.open_to_all()
    for path in ("page.txt", "long.txt"):
        (room.out / path).chmod(0o444)
    room.out.chmod(0o555)
    room.is_built(room.once(under=room.unprivileged))


@case("a page that cannot be read is written")
def page_that_cannot_be_read(room: Room) -> None:
    room.make({"page.txt": "new", "_site/page.txt": "old"})
    room.open_to_all()
    (room.out / "page.txt").chmod(0o222)
    room.is_built(room.once(under=room.unprivileged))
    (room.out / "page.txt").chmod(0o600)
    room.has("page.txt", "new")


@case("an old file of 1 TiB at a page's place, and besides, is not read", 5)
def old_file_without_end(room: Room) -> None:
    room.make({"page.txt": "new", "_site/": ""})
    for path in ("page.txt", "surplus.bin"):
        lengthen(room.out / path, 1 << 40)
    room.is_built(room.once())
    room.has("page.txt", "new")
    room.lacks("surplus.bin")


# ---- other bytes


def is_written_over(room: Room, old: int, new: int) -> bool:
    """Builds a page of so many bytes, and then another one at its place: whether it is in the same file."""
    room.make({"page.txt": "o" * old})
    room.is_built(room.once())
    before = stands(room, "page.txt")[0]
    # As long as the old file is open, no new one gets its number.
    keeper = (room.out / "page.txt").open("rb")
    room.make({"page.txt": "n" * new})
    room.is_built(room.once())
    room.has("page.txt", "n" * new)
    keeper.close()
    return before == stands(room, "page.txt")[0]


@case("a page of at most 64 KiB that needs no more blocks is written over the old one")
def written_over(room: Room) -> None:
    for old, new in ((3000, 3000), (3000, 3900), (3000, 10), (3000, 0), (60000, 61000), (IN_PLACE, IN_PLACE), (100000, 5000)):
        room.same(f"from {old} to {new} bytes: whether it is the same file", True, is_written_over(room, old, new))


@case("a page that is larger than 64 KiB, or needs more blocks, is written beside and renamed")
def written_beside(room: Room) -> None:
    for old, new in ((3000, 5000), (IN_PLACE - 10, IN_PLACE + BLOCK), (100000, 100000), (100000, 80000), (3000, 500000), (0, 10)):
        room.same(f"from {old} to {new} bytes: whether it is the same file", False, is_written_over(room, old, new))


@case("a snapshot by hard links keeps the old bytes")
def snapshot(room: Room) -> None:
    texts = {"page.txt": "old", "a/b.txt": "old b", "long.txt": "o" * 100000, "gone.txt": "old"}
    room.make({**texts, "same.txt": "same"})
    room.is_built(room.once())
    subprocess.run(["cp", "-al", "--", room.out, room.top / "snapshot"], check=True)
    room.make({"page.txt": "new", "a/b.txt": "new b", "long.txt": "n" * 100000})
    (room.site / "gone.txt").unlink()
    room.is_built(room.once())
    for path, text in {"page.txt": "new", "a/b.txt": "new b", "long.txt": "n" * 100000, "same.txt": "same"}.items():
        room.has(path, text)
    room.lacks("gone.txt")
    for path, text in texts.items():
        room.same(f"the snapshot's {path}", text, (room.top / "snapshot" / path).read_text())
    room.same("links of a page that did not change", 2, (room.out / "same.txt").stat().st_nlink)


@case("a reader never meets an empty page, nor one shorter than both texts")
def reader(room: Room) -> None:
    old, new = "old line\n" * 300, "a new line\n" * 300
    shortest, is_over, count = [len(old)], threading.Event(), [0]

    def read() -> None:
        while not is_over.is_set():
            try:
                length = len((room.out / "page.txt").read_bytes())
            except FileNotFoundError:
                length = -1
            shortest[0] = min(shortest[0], length)
            count[0] += 1

    room.make({"page.txt": old})
    with room.session() as session:
        session.scans_and_builds()
        reading = threading.Thread(target=read)
        reading.start()
        until = time.monotonic() + 1
        while time.monotonic() < until:
            for text in (new, old):
                session.put("page.txt", text)
                session.builds()
        is_over.set()
        reading.join()
    room.same(f"the shortest page that was read, of {count[0]}", len(old), shortest[0])
