"""Sessions whose source, output or reader fails for a while: each failure is told, and the next build makes good what it left."""
from __future__ import annotations

import subprocess

from room import Room, case

PAGE = "---\ntitle: Hi\n---\n<h1>{{ page.title }}</h1>\n"


def closed_output(room: Room) -> None:
    """Nobody but root may change a name in `_site`."""
    room.open_to_all()
    room.out.chmod(0o555)


@case("pages that could not be written are named, and the next build writes them alone")
def writes_that_fail(room: Room) -> None:
    room.make({"_site/": ""})
    closed_output(room)
    with room.session(under=room.unprivileged) as session:
        session.put("p.html", "---\n---\nx")
        session.put("q.html", "---\n---\ny")
        session.marks("p.html", "q.html")
        room.out.chmod(0o777)
        room.same("the next build", ["built rendered=0 reused=2 written=2 removed=0"], session.ask("build"))
    room.has("p.html", "x")
    room.has("q.html", "y")


@case("a file that could not be removed is named, and the next build removes it")
def removals_that_fail(room: Room) -> None:
    room.make({"_site/old.html": "old"})
    closed_output(room)
    with room.session(under=room.unprivileged) as session:
        session.marks("old.html")
        room.out.chmod(0o777)
        room.same("the next build", ["built rendered=0 reused=0 written=0 removed=1"], session.ask("build"))
    room.lacks("old.html")


@case("where _site could not be listed nothing is written, and the next build lists it and renders nothing again")
def lists_that_fail(room: Room) -> None:
    room.make({"_site/old.html": "old"})
    room.open_to_all()
    room.out.chmod(0)
    with room.session(under=room.unprivileged) as session:
        session.put("index.html", PAGE)
        room.same("the first build", ["out-fault 0"], session.ask("build"))
        room.out.chmod(0o777)
        room.same("what _site has then", ["old.html"], [place.name for place in room.out.iterdir()])
        room.same("the next build", ["built rendered=0 reused=1 written=1 removed=1"], session.ask("build"))
    room.has("index.html", "<h1>Hi</h1>\n")


@case("a scan that fails leaves the files of the scan before it")
def scans_that_fail(room: Room) -> None:
    room.make({"a.txt": "old", "_site/": ""})
    room.open_to_all()
    with room.session(under=room.unprivileged) as session:
        session.scans_and_builds()
        room.make({"a.txt": "new", "b.txt": "b"})
        (room.site / "b.txt").chmod(0)
        room.same("the second scan", ["scan-fault"], session.ask("scan"))
        room.same("the build after it", ["built rendered=0 reused=0 written=0 removed=0"], session.ask("build"))
        room.has("a.txt", "old")
        room.lacks("b.txt")
        (room.site / "b.txt").chmod(0o666)
        room.same("the third scan", ["scanned 2"], session.ask("scan"))
        room.same("the build after that", ["built rendered=0 reused=0 written=2 removed=0"], session.ask("build"))
    room.has("a.txt", "new")
    room.has("b.txt", "b")


@case("a session whose reader goes after the first reply ends with status 6, and _site is as before or right")
def replies_that_fail(room: Room) -> None:
    room.make({"_site/index.html": "old"})
    script = f"put index.html {len(PAGE)}\n{PAGE}build\nbuild\nend\n".encode()
    process = room.start(["session"], stdin=subprocess.PIPE)
    process.stdin.write(script[: -len("build\nbuild\nend\n")])
    process.stdin.flush()
    room.same("the first reply", b"ok\n", process.stdout.readline())
    process.stdout.close()
    process.stdin.write(script[-len("build\nbuild\nend\n") :])
    process.stdin.close()
    said = process.stderr.read().decode()
    room.same("the status", 6, process.wait())
    room.is_plain(said)
    room.same("whether _site is as before or right", True, (room.out / "index.html").read_text() in ("old", "<h1>Hi</h1>\n"))
