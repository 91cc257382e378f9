"""Nothing outside of the output is touched: links at its place and in it."""
from __future__ import annotations

import os
import shutil
from functools import partial
from pathlib import Path

from room import Room, case, tree
from special import SPECIAL, Make


def make_link(target: str, place: Path) -> None:
    place.symlink_to(target)


def make_file(place: Path) -> None:
    place.write_text("mine")


# ---- _site is no folder

LINKS: dict[str, Make] = {
    "a link to another folder": partial(make_link, "../outside"),
    "a link to the site itself": partial(make_link, "."),
    "a link to a file": partial(make_link, "../outside/precious"),
    "a link to nothing": partial(make_link, "../nowhere"),
}


def site_is(make: Make, sentence: str, room: Room) -> None:
    room.make({"page.txt": "new"})
    (room.outside / "precious").write_text("mine")
    make(room.out)
    before = tree(room.top)
    for command in ("once", "build"):
        room.fails_the_list(room.run(command), sentence)
    with room.session() as session:
        session.ask("scan")
        room.same("the reply to build", ["out-fault 0"], session.ask("build"))
        room.same("the status of the session", 0, session.end().status)
    room.same_tree("what was there", before, room.top)


for name, make in LINKS.items():
    case(f"_site is {name}: its list fails, and nothing is touched")(partial(site_is, make, r"_site.*\blink\b"))
case("_site is a file: its list fails, and nothing is touched")(partial(site_is, make_file, r"_site.*\b(a file|a link|folder)\b"))
for name, make in SPECIAL.items():
    case(f"_site is {name}: its list fails, and nothing is touched")(partial(site_is, make, "_site"))


# ---- links in _site


def outside_with(room: Room, files: dict[str, str]) -> dict[str, str]:
    """Makes files that are no business of the program, and gives what stands there then."""
    for path, text in files.items():
        (room.outside / path).write_text(text)
    return tree(room.outside)


@case("a link above a page that keep_files keeps: the write fails and is marked")
def link_above_a_kept_page(room: Room) -> None:
    before = outside_with(room, {"page.txt": "mine"})
    room.make({"_config.yml": "keep_files: [a]\n", "a/page.txt": "new", "a/more.txt": "new", "b.txt": "b", "_site/": ""})
    (room.out / "a").symlink_to("../../outside")
    room.is_marked(room.once(), "a/more.txt", "a/page.txt")
    room.has("b.txt", "b")
    room.same_tree("outside", before, room.outside)


@case("a link deep above a kept page: the write fails and is marked")
def link_deep_above_a_kept_page(room: Room) -> None:
    before = outside_with(room, {"page.txt": "mine"})
    room.make({"_config.yml": "keep_files: [a]\n", "a/b/c/page.txt": "new", "_site/a/b/": ""})
    (room.out / "a/b/c").symlink_to(room.outside)
    room.is_marked(room.once(), "a/b/c/page.txt")
    room.same_tree("outside", before, room.outside)


@case("a link named .svn, which is kept by default: no page is written through it")
def link_named_svn(room: Room) -> None:
    before = outside_with(room, {"config": "mine"})
    room.make({"page": "---\npermalink: /.svn/config\n---\nnew", "_site/": ""})
    (room.out / ".svn").symlink_to("../../outside")
    room.is_marked(room.once(), ".svn/config")
    room.same_tree("outside", before, room.outside)


@case("a link above a page that is not kept is removed, and the page written")
def link_above_a_page(room: Room) -> None:
    before = outside_with(room, {"page.txt": "mine"})
    room.make({"a/page.txt": "new", "_site/": ""})
    (room.out / "a").symlink_to("../../outside")
    room.is_built(room.once())
    room.has("a/page.txt", "new")
    room.same_tree("outside", before, room.outside)


@case("a link at a page's place is replaced, also a kept one")
def link_at_a_page(room: Room) -> None:
    before = outside_with(room, {"file": "mine"})
    room.make({"_config.yml": "keep_files: [kept.txt]\n", "page.txt": "new", "kept.txt": "new", "long.txt": "n" * 100000, "_site/": ""})
    for path in ("page.txt", "kept.txt", "long.txt", "surplus.txt"):
        (room.out / path).symlink_to("../../outside/file")
    room.is_built(room.once())
    for path in ("page.txt", "kept.txt"):
        room.has(path, "new")
    room.has("long.txt", "n" * 100000)
    room.lacks("surplus.txt")
    room.same_tree("outside", before, room.outside)


def replace_by_link(room: Room, path: str) -> None:
    """What a neighbour does: a folder of the output goes, and a link to another folder comes."""
    shutil.rmtree(room.site / path)
    (room.site / path).symlink_to(room.outside)


@case("a link that comes after the list: the write fails, and is done when the link is gone")
def link_after_the_list(room: Room) -> None:
    room.make({"a/page.txt": "old", "b.txt": "b"})
    before = outside_with(room, {"page.txt": "mine"})
    with room.session() as session:
        session.scans_and_builds()
        replace_by_link(room, "_site/a")
        session.put("a/page.txt", "new")
        session.put("a/more.txt", "n" * 100000)
        session.marks("a/more.txt", "a/page.txt")
        room.same_tree("outside", before, room.outside)
        (room.out / "a").unlink()
        session.builds()
        room.has("a/page.txt", "new")
        room.has("a/more.txt", "n" * 100000)
        room.same("the status of the session", 0, session.end().status)


@case("a link that comes after the list: no removal goes through it, and it counts as done")
def removal_below_a_link(room: Room) -> None:
    room.make({"a/page.txt": "old", "b.txt": "b"})
    before = outside_with(room, {"page.txt": "mine", "more.txt": "mine"})
    with room.session() as session:
        session.scans_and_builds()
        replace_by_link(room, "_site/a")
        session.ask("delete a/page.txt")
        session.builds()
        room.same("the status of the session", 0, session.end().status)
    room.same_tree("outside", before, room.outside)


@case("_site becomes a link after the list: writes are marked, removals done, and nothing outside is touched")
def site_becomes_a_link(room: Room) -> None:
    room.make({"a/page.txt": "old", "b.txt": "b", "c.txt": "c"})
    (room.outside / "a").mkdir()
    before = outside_with(room, {"b.txt": "mine", "c.txt": "mine", "a/page.txt": "mine"})
    with room.session() as session:
        session.scans_and_builds()
        replace_by_link(room, "_site")
        session.ask("delete b.txt")
        session.builds()
        session.put("a/page.txt", "new")
        session.put("c.txt", "new")
        session.marks("a/page.txt", "c.txt")
        session.ask("delete a/page.txt")
        session.marks("c.txt")
        room.same("the status of the session", 0, session.end().status)
    room.same_tree("outside", before, room.outside)


@case("a page that is a hard link of a file outside, or of a source, is replaced and not written through")
def hard_links(room: Room) -> None:
    before = outside_with(room, {"file": "mine"})
    room.make({"page.txt": "new!", "source.txt": "a source", "_site/": ""})
    os.link(room.outside / "file", room.out / "page.txt")
    os.link(room.site / "page.txt", room.out / "source.txt")
    room.is_built(room.once())
    room.has("page.txt", "new!")
    room.has("source.txt", "a source")
    room.same("the source page.txt", "new!", (room.site / "page.txt").read_text())
    room.same_tree("outside", before, room.outside)
