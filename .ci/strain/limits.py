"""The limits of a whole site that no row of text can hold: the greatest that is taken, and the least that is refused."""
from __future__ import annotations

from pathlib import Path
from typing import Iterable, Sequence

from room import Room, case, meddling, tree
from client import put_head
from texts import FRONT, MIB, MOST, write

# docs/PROFILE.md has these limits.
FILES = 50_000
SITE = 512 * MIB
FULL = SITE // MOST
BUILT = 1024 * MIB
ARCHIVES = 100_000
# A page whose text and output have 16 MiB each.
LONGEST = FRONT + b'{% assign a = "aaaaaaaaaaaaaaaa" %}{% for i in (1..20) %}{% assign a = a | append: a %}{% endfor %}{{ a }}'


def checks(room: Room, what: str, status: int, *replies: str) -> None:
    ran = room.run("check")
    room.same(f"{what}: the replies", list(replies), ran.lines)
    room.same(f"{what}: the status", status, ran.status)


def sparse(place: Path, size: int) -> None:
    """A file of zeros that takes no room."""
    place.touch()
    with open(place, "r+b") as file:
        file.truncate(size)


def leaves_the_output(room: Room, words: Sequence[str], *replies: str) -> None:
    """A build that ends with a fault and leaves `_site` as it was."""
    write(room, {"_site/old.html": b"old"})
    before = tree(room.out)
    ran = room.run(*words)
    room.same(f"the replies to {' '.join(words)}", list(replies), ran.lines)
    room.same("the status", 1, ran.status)
    room.same_tree("_site", before, room.out)


@case("limits: 50,000 files are taken, and the file after them in the order of their paths is told", 60, in_memory=True)
def files_of_a_source(room: Room) -> None:
    for number in range(FILES):
        (room.site / f"{number:05}.txt").touch()
    checks(room, "50,000 files", 0, f"scanned {FILES}", "clean")
    (room.site / "a.txt").touch()
    leaves_the_output(room, ["once"], "fault F1 0 a.txt")
    (room.site / "00000a.txt").touch()
    (room.site / "a.txt").unlink()
    leaves_the_output(room, ["build", "--jobs", "4"], f"fault F1 0 {FILES - 1:05}.txt")


@case("limits: a file of 16 MiB is taken, and one that is a byte longer is told, whatever it is", 60, in_memory=True)
def length_of_a_file(room: Room) -> None:
    for path in ("a.bin", "_includes/a.html", "_layouts/a.html", "_posts/2020-01-01-a.md"):
        (room.site / path).parent.mkdir(exist_ok=True)
        sparse(room.site / path, MOST)
        checks(room, f"{path}, 16 MiB", 0, "scanned 1", "clean")
        sparse(room.site / path, MOST + 1)
        leaves_the_output(room, ["once"], f"fault F2 0 {path}")
        (room.site / path).unlink()


@case("limits: 512 MiB of files are taken, and the file with which they are more is told", 60, in_memory=True)
def length_of_a_source(room: Room) -> None:
    for number in range(FULL):
        sparse(room.site / f"{number:02}.bin", MOST)
    checks(room, "512 MiB", 0, f"scanned {FULL}", "clean")
    write(room, {"empty": b""})
    checks(room, "512 MiB and an empty file", 0, f"scanned {FULL + 1}", "clean")
    write(room, {"more": b"x"})
    leaves_the_output(room, ["once"], "fault F3 0 more")
    (room.site / "more").rename(room.site / "00")
    leaves_the_output(room, ["once"], f"fault F3 0 {FULL - 1:02}.bin")


def put(path: str, size: int = 0) -> tuple[bytes, int]:
    """A line that puts a file of so many zeros, and how many."""
    return put_head(path, size), size


def spoken(room: Room, lines: Iterable[tuple[bytes, int]]) -> list[str]:
    """The replies to the lines of a session, which come from a file in which zeros take no room."""
    script = room.top / "script"
    with open(script, "wb") as file:
        for line, zeros in lines:
            file.write(line)
            file.seek(zeros, 1)
        file.truncate()
    with open(script, "rb") as file:
        return room.ended(room.start(["session"], stdin=file)).lines


@case("limits: a session holds 50,000 files, and is told the line of one more", 60)
def files_of_a_session(room: Room) -> None:
    full = [put(f"a{number}") for number in range(FILES)]
    # What is held already, and what takes the place of another, is no file more.
    replies = spoken(room, [*full, put("a0", 1), (b"delete a1\n", 0), put("b"), put("c")])
    room.same("the last replies", ["ok"] * 3 + [f"script {FILES + 4} 7"], replies[-4:])
    room.same("the number of replies", FILES + 4, len(replies))


@case("limits: a session holds 512 MiB, and is told the line with which they are more", 60)
def length_of_a_session(room: Room) -> None:
    full = [put(f"a{number}", MOST) for number in range(FULL)]
    replies = spoken(room, [*full, put("empty"), put("a0", MOST), put("a0", MOST - 1), put("b", 1), put("c", 1)])
    room.same("the replies", ["ok"] * (FULL + 4) + [f"script {FULL + 5} 7"], replies)


@case("limits: a site may come to 1 GiB, and the item with which it is more is told", 90, in_memory=True)
def length_of_what_is_built(room: Room) -> None:
    pages = BUILT // (2 * MOST)
    write(room, {f"{number:02}.html": LONGEST for number in range(pages)})
    write(room, {"z.html": FRONT})
    checks(room, "1 GiB of pages", 0, f"scanned {pages + 1}", "clean")
    write(room, {"z.html": FRONT + b"x"})
    leaves_the_output(room, ["build", "--jobs", "4"], f"scanned {pages + 1}", "fault F21 0 z.html")
    # A copied file counts before the first item.
    write(room, {"z.html": FRONT, "a.txt": b"x"})
    leaves_the_output(room, ["once"], f"scanned {pages + 2}", f"fault F21 0 {pages - 1:02}.html")


def tagged(count: int) -> dict[str, bytes]:
    """A site whose post has so many tags, which have archives."""
    tags = ", ".join(map(str, range(count)))
    return {"_config.yml": b"make_archives: [tags]\n", "_posts/2020-01-01-a.html": f"---\npermalink: /a/\ntags: [{tags}]\n---\nA\n".encode()}


@case("limits: 100,000 archives of one word are taken, and with one more nothing is written", 60)
def number_of_archives(room: Room) -> None:
    write(room, tagged(ARCHIVES))
    checks(room, "100,000 tags", 0, "scanned 2", "clean")
    write(room, tagged(ARCHIVES + 1))
    leaves_the_output(room, ["build", "--jobs", "4"], "scanned 2", "fault F6 0 _config.yml")
    # It is told before outputs that clash.
    write(room, {"tag": b"x"})
    leaves_the_output(room, ["once"], "scanned 3", "fault F6 0 _config.yml")
    # The archives of each word count by themselves.
    write(room, {"_config.yml": b"make_archives: [categories]\n"})
    checks(room, "100,001 tags without archives", 0, "scanned 3", "clean")


@case("limits: a post with a million tags is told as soon as it is read", 60, in_memory=True)
def far_too_many_archives(room: Room) -> None:
    write(room, tagged(10 * ARCHIVES))
    leaves_the_output(room, ["once"], "scanned 2", "fault F6 0 _config.yml")


@case("limits: a sitemap of as many pages as a source has files lists each of them", 60, in_memory=True)
def number_of_listed_pages(room: Room) -> None:
    write(room, {"_config.yml": b"make_sitemap: true\n"})
    for number in range(FILES - 1):
        (room.site / f"{number:05}.html").touch()
    ran = room.run("build", "--jobs", "4")
    room.same("the replies", [f"scanned {FILES}", f"built rendered=1 reused=0 written={FILES} removed=0"], ran.lines)
    room.same("the lines of the sitemap", FILES + 2, (room.out / "sitemap.xml").read_bytes().count(b"\n"))


@case("limits: a sitemap of 100,000 archives is taken, and one that their names make longer than 16 MiB is told", 60)
def length_of_a_sitemap(room: Room) -> None:
    site = tagged(ARCHIVES)
    # In an address each byte of these letters is three.
    long = ", ".join(f"{number}{'ä' * 25}" for number in range(ARCHIVES))
    write(room, {**site, "_config.yml": b"make_archives: [tags]\nmake_sitemap: true\n"})
    checks(room, "100,000 short tags", 0, "scanned 2", "clean")
    write(room, {"_posts/2020-01-01-a.html": f"---\npermalink: /a/\ntags: [{long}]\n---\nA\n".encode()})
    leaves_the_output(room, ["build", "--jobs", "4"], "scanned 2", "fault F20 0 sitemap.xml")
    leaves_the_output(room, ["once"], "scanned 2", "fault F20 0 sitemap.xml")


@case("limits: a feed of seven posts of 2 MiB is taken, and one of ten is told", 60)
def length_of_a_feed(room: Room) -> None:
    text = FRONT + b"a" * (2 * MIB)
    write(room, {"_config.yml": b"make_feed: true\n", **{f"_posts/2020-01-0{number}-a.html": text for number in range(1, 8)}})
    checks(room, "seven posts", 0, "scanned 8", "clean")
    write(room, {f"_posts/2020-02-0{number}-a.html": text for number in range(1, 4)})
    leaves_the_output(room, ["build", "--jobs", "4"], "scanned 11", "fault F20 6 feed.xml")
    leaves_the_output(room, ["once"], "scanned 11", "fault F20 6 feed.xml")


@case("limits: a clock before 1970 or after 9999 is told, and so is no other")
def clocks(room: Room) -> None:
    library = meddling(room, Path(__file__).with_name("clock.c"))
    write(room, {"a.html": FRONT + b'{{ site.time | date: "%Y-%m-%d" }}'})
    for seconds, replies in (
        ("-1", ["usage 5"]),
        ("0", ["scanned 1", "built rendered=1 reused=0 written=1 removed=0"]),
        ("253402214399", ["scanned 1", "built rendered=1 reused=0 written=1 removed=0"]),
        ("253402214400", ["usage 5"]),
    ):
        ran = room.once(under=("env", f"LD_PRELOAD={library}", f"CLOCK={seconds}"))
        room.same(f"the replies at {seconds}", replies, ran.lines)
        room.same(f"the status at {seconds}", 2 if replies == ["usage 5"] else 0, ran.status)
    room.has("a.html", "9999-12-30")
