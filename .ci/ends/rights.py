"""The rights of pages, and pages that the rights or the file system do not let be written."""
from __future__ import annotations

import os

from room import Room, case


@case("files are made as umask lets, whatever the mode of their source")
def modes_by_umask(room: Room) -> None:
    room.make({"run.cgi": "#!", "secret.txt": "s"})
    (room.site / "run.cgi").chmod(0o755)
    (room.site / "secret.txt").chmod(0o600)
    room.is_built(room.once(under=("sh", "-c", 'umask 022; exec "$@"', "sh")))
    for path in ("run.cgi", "secret.txt"):
        room.same(f"the mode of {path}", "644", f"{(room.out / path).stat().st_mode & 0o777:o}")


def rights(room: Room, path: str) -> str:
    """The mode, the owner and the group of a page."""
    there = (room.out / path).stat()
    return f"{there.st_mode & 0o7777:o} {there.st_uid}:{there.st_gid}"


@case("the mode, the owner and the group that a page was given in _site stay when its bytes change")
def rights_stay(room: Room) -> None:
    paths = ("run.cgi", "long.cgi")
    room.make({"run.cgi": "#!old", "long.cgi": "o" * 100000})
    room.is_built(room.once())
    for path in paths:
        if os.geteuid() == 0:
            os.chown(room.out / path, 1234, 4321)
        (room.out / path).chmod(0o750)
    before = [rights(room, path) for path in paths]
    room.make({"run.cgi": "#!new", "long.cgi": "n" * 100000})
    room.is_built(room.once())
    room.same("the rights of both", before, [rights(room, path) for path in paths])
    room.has("long.cgi", "n" * 100000)


# The file that takes its place is the one's who builds, and its bytes come from the site.
@case("a page that takes the place of another takes no setuid and no setgid from it")
def rights_that_are_not_taken(room: Room) -> None:
    room.make({"run": "o" * 100000, "linked": "old"})
    room.is_built(room.once())
    os.link(room.out / "linked", room.outside / "linked")
    for path in ("run", "linked"):
        (room.out / path).chmod(0o6755)
    room.make({"run": "n" * 100000, "linked": "new"})
    room.is_built(room.once())
    for path in ("run", "linked"):
        room.same(f"setuid and setgid of {path}", 0, (room.out / path).stat().st_mode & 0o6000)


@case("a page with a name of more than 255 bytes is marked, and the others are right")
def long_name(room: Room) -> None:
    room.make({"page": f"---\npermalink: /{'x' * 300}\n---\nnew", "deep": f"---\npermalink: /d/{'y' * 300}/z\n---\nnew", "b.txt": "b"})
    room.is_marked(room.once(), f"d/{'y' * 300}/z", "x" * 300)
    room.has("b.txt", "b")


@case("pages below a folder that cannot be written are marked, and stay as they were")
def folder_without_rights(room: Room) -> None:
    room.make({"a/page.txt": "n" * 5000, "a/more.txt": "new", "b.txt": "b", "_site/a/page.txt": "old", "_site/a/surplus.txt": "old"})
    room.open_to_all()
    (room.out / "a").chmod(0o555)
    (room.out / "a/page.txt").chmod(0o444)
    room.is_marked(room.once(under=room.unprivileged), "a/surplus.txt", "a/more.txt", "a/page.txt")
    (room.out / "a").chmod(0o755)
    room.has("a/page.txt", "old")
    room.has("a/surplus.txt", "old")
    room.has("b.txt", "b")
    room.same("the names in _site", {"a", "b.txt"}, set(os.listdir(room.out)))
