"""Pages whose links are hard to look for: fronts of tags and comments without an end, values that are very long, and very many links that lead nowhere."""
from __future__ import annotations

import subprocess
import sys
import threading
from typing import Callable, Sequence

from room import Room, case
from texts import LIMITED, MOST, STACK, Files, Took, write

SCRIPT = b"scan\nbuild\nlinks\nlinks\nend\n"
# Of the processor's seconds, for a scan, a build and two looks at 16 MiB.
SECONDS = 20
# As long as a path can be, with folders around it.
LONGEST = "/".join(["l" * 200] * 5) + f"/{'m' * 14}.html"
PIECE = 1 << 20
BASE = b"a" * (MOST // 4)


def asked(room: Room, files: Files, script: bytes = SCRIPT) -> tuple[list[str], Took]:
    """The replies of a session in a folder with these files, and what it took."""
    write(room, files)
    place = room.top / "took"
    started = room.start(["session"], (sys.executable, str(LIMITED), str(place), str(STACK)), stdin=subprocess.PIPE)
    ran = room.ended(started, script)
    room.same("the status", 0, ran.status)
    kibibytes, seconds = place.read_text().split()
    return ran.lines, Took(int(kibibytes) / 1024, float(seconds))


def scanned(name: str, files: Callable[[], Files], broken: Callable[[], Sequence[str]] = list) -> None:
    """Enters a case: pages are looked at twice, and the second time nothing is scanned; these links lead nowhere, and it takes no more than so many seconds."""

    def play(room: Room) -> None:
        given = files()
        pages = sum(path.endswith(".html") for path in given)
        lines, took = asked(room, given)
        told = list(broken())
        room.same("the scan", f"scanned {len(given)}", lines[0])
        room.same("the first answer", [f"links {len(told)} scanned={pages}", *told], lines[2 : 3 + len(told)])
        room.same("the second answer", [f"links {len(told)} scanned=0", *told], lines[3 + len(told) :])
        if took.seconds > SECONDS:
            room.differs("the time", f"at most {SECONDS} s", f"{took.seconds:.1f} s")

    case(f"links: {name}", 120, in_memory=True)(play)


def filled(part: bytes, front: bytes = b"", end: bytes = b"") -> bytes:
    """A text of 16 MiB that is full of this part."""
    return front + part * ((MOST - len(front) - len(end)) // len(part)) + end


for part in (b"<", b"<a", b"<a ", b"<a href=", b'<a b="', b"<a b=\"'", b"<a b='\" c=\"' ", b"<!--", b"<!-", b"<a b", b"<a\n\t", b"--", b"<a href=x/ ", b"<" + b"a" * 999):
    scanned(f"16 MiB of {part[:20].decode()!r}", lambda part=part: {"a.html": filled(part)})
scanned("16 MiB of white space in a tag", lambda: {"a.html": filled(b" ", b"<a ")})
scanned("16 MiB of white space in tags that do not end", lambda: {"a.html": filled(b"<a " + b" " * 4093)})
scanned("16 MiB of attributes without an end", lambda: {"a.html": filled(b" b=c", b"<a")})
scanned("16 MiB of attributes in a tag", lambda: {"a.html": filled(b" b=c", b"<a", b" href=no>")}, lambda: ["broken a.html no"])
scanned("16 MiB of links in a tag that does not end", lambda: {"a.html": filled(b" href=x", b"<a", b"<")})
scanned("16 MiB of a tag's name", lambda: {"a.html": filled(b"a", b"<", b" href=no>")}, lambda: ["broken a.html no"])
scanned("16 MiB of comments", lambda: {"a.html": filled(b"<!---->", b"", b"<a href=no>")}, lambda: ["broken a.html no"])
scanned("16 MiB of links that are answered", lambda: {"a.html": filled(b"<a href=b>"), "b.html": b"x"})
scanned("16 MiB of links to other hosts", lambda: {"a.html": filled(b"<a href=//h>")})
scanned("16 MiB that are no UTF-8 at their end", lambda: {"a.html": filled(b"<a href=x>", b"", b"\xff")})


def of_value(part: bytes) -> None:
    """Enters a case of a value of 16 MiB that leads nowhere."""

    def page() -> bytes:
        return filled(part, b'<a href="', b'">')

    scanned(f"a value of 16 MiB of {part.decode()!r}", lambda: {"a.html": page()}, lambda: ["broken a.html " + page()[9:-2].decode().replace("\n", "?")])


for part in (b"&amp;", b"%41", b"/..", b"/../x", b"a", b"a/", b"a/../", b"%2F", b"%", b"%%41", b"a\n", b"&"):
    of_value(part)
# These are paths in the end.
scanned("a value of 16 MiB of './'", lambda: {"a.html": filled(b"./", b'<a href="', b'a">')})
scanned("a value of 16 MiB of 'b/../'", lambda: {"a.html": filled(b"b/../", b'<a href="', b'a">')})
scanned("a value of 16 MiB of '/'", lambda: {"a.html": filled(b"/", b'<a href="a/..', b'a">')})
scanned("a value of 16 MiB behind '?'", lambda: {"a.html": filled(b"%zz", b'<a href="a?', b'">')})
scanned("a scheme of 16 MiB", lambda: {"a.html": filled(b"a", b'<a href="', b':">')})
scanned("a base of 4 MiB", lambda: {"_config.yml": b"baseurl: /" + BASE, "a.html": b"<a href=/" + BASE + b"/a><a href=/" + BASE + b"/no><a href=/" + BASE[1:] + b"/no>"}, lambda: [f"broken a.html /{BASE.decode()}/no"])


@case("links: ten thousand lines in one session", 120, in_memory=True)
def many_lines(room: Room) -> None:
    count = 10_000
    pages = {f"{number}.html": b"<a href=/1><a href=no>" for number in range(10)}
    lines, took = asked(room, pages, b"links\n" * count + b"scan\nbuild\n" + b"links\n" * count + b"end\n")
    told = [f"broken {path} no" for path in sorted(pages)]
    room.same("the answers before a build", ["links 0 scanned=0"] * count, lines[:count])
    room.same("the first answer", ["links 10 scanned=10", *told], lines[count + 2 :][:11])
    room.same("all others", ["links 10 scanned=0", *told] * (count - 1), lines[count + 13 :])
    if took.seconds > SECONDS:
        room.differs("the time", f"at most {SECONDS} s", f"{took.seconds:.1f} s")


@case("links: a million and a half lead nowhere, in a page with the longest path", 240, in_memory=True)
def very_many(room: Room) -> None:
    part = b"<a href=x>"
    count = MOST // len(part)
    write(room, {LONGEST: part * count})
    place = room.top / "took"
    started = room.start(["session"], (sys.executable, str(LIMITED), str(place), str(STACK)), stdin=subprocess.PIPE, stderr=subprocess.DEVNULL)
    giving = threading.Thread(target=lambda: (started.stdin.write(b"scan\nbuild\nlinks\nend\n"), started.stdin.close()))
    giving.start()
    head = b"".join(started.stdout.readline() for _ in range(3))
    room.same("the front of the replies", f"scanned 1\nbuilt rendered=0 reused=0 written=1 removed=0\nlinks {count} scanned=1\n".encode(), head)
    line = f"broken {LONGEST} x\n".encode()
    size, same = 0, True
    # The lines are those of a text that repeats itself, so a piece is that text from where it begins.
    repeated = line * (PIECE // len(line) + 2)
    while piece := started.stdout.read(PIECE):
        same = same and piece == repeated[size % len(line) :][: len(piece)]
        size += len(piece)
    room.same("whether each line is that of the link", True, same)
    room.same("the bytes of the lines", count * len(line), size)
    giving.join()
    room.same("the status", 0, started.wait())
    if float(place.read_text().split()[1]) > 3 * SECONDS:
        room.differs("the time", f"at most {3 * SECONDS} s", place.read_text())


@case("links: a reader that goes, and a full device, in the middle of the reply give status 6", 60, in_memory=True)
def failing_sink(room: Room) -> None:
    write(room, {"a.html": b"<a href=x>" * 100_000})
    script = b"scan\nbuild\nlinks\nlinks\nend\n"
    started = room.start(["session"], stdin=subprocess.PIPE)
    giving = threading.Thread(target=lambda: (started.stdin.write(script), started.stdin.close()))
    giving.start()
    for _ in range(1000):
        started.stdout.readline()
    started.stdout.close()
    giving.join()
    said = started.stderr.read()
    room.same("the status after the reader has gone", 6, started.wait())
    room.same("the lines of standard error", 1, said.count(b"\n"))
    with open("/dev/full", "wb") as full:
        ran = room.ended(room.start(["session"], stdin=subprocess.PIPE, stdout=full), b"links\n")
    room.same("the status on a full device", 6, ran.status)
    place = room.top / "replies"
    with open(place, "wb") as replies:
        limited = ("sh", "-c", 'trap "" XFSZ; ulimit -f 100; exec "$@"', "sh")
        ran = room.ended(room.start(["session"], limited, stdin=subprocess.PIPE, stdout=replies), script)
    room.same("the status where a file may not grow", 6, ran.status)
    wanted = ("scanned 1\nbuilt rendered=0 reused=0 written=1 removed=0\nlinks 100000 scanned=1\n" + "broken a.html x\n" * 100_000).encode()
    came = place.read_bytes()
    room.same("whether the replies are those of a whole run up to there", True, len(came) > 0 and wanted.startswith(came))
