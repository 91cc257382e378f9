"""Empty folders of the output: those in the way of a page go, and others when the build is done."""
from __future__ import annotations

import subprocess

from room import Room, case, described, tree


@case("empty folders in the way of a page are removed")
def empty_folders_in_the_way(room: Room) -> None:
    room.make({"x": "x", "a/long": "n" * 100000, "_site/x/y/z/": "", "_site/x/w/": "", "_site/a/long/b/": ""})
    room.is_built(room.once())
    room.has("x", "x")
    room.has("a/long", "n" * 100000)


@case("empty folders in the way of a kept page are removed")
def empty_folders_in_the_way_of_a_kept_page(room: Room) -> None:
    room.make({"_config.yml": "keep_files: [k]\n", "k/x": "x", "_site/k/x/y/": "", "_site/k/mine.txt": "mine"})
    room.is_built(room.once())
    room.has("k/x", "x")
    room.has("k/mine.txt", "mine")


@case("a folder in the way of a page is removed with the files in it")
def folder_with_files_in_the_way(room: Room) -> None:
    room.make({"x": "x", "_site/x/y/old.txt": "old", "_site/x/z/": ""})
    room.is_built(room.once())
    room.has("x", "x")


@case("a kept file below a page's place stays, and the page is marked")
def kept_file_in_the_way(room: Room) -> None:
    room.make({"_config.yml": "keep_files: [x/y]\n", "x": "x", "_site/x/y/mine.txt": "mine", "_site/x/z/": ""})
    room.is_marked(room.once(), "x")
    room.has("x/y/mine.txt", "mine")


@case("a kept file above a page's place stays, and the page is marked")
def kept_file_above(room: Room) -> None:
    room.make({"_config.yml": "keep_files: [x]\n", "x/y.txt": "y", "b.txt": "b", "_site/x": "mine"})
    room.is_marked(room.once(), "x/y.txt")
    room.has("x", "mine")
    room.has("b.txt", "b")


@case("empty folders that come to a page's place in a session are removed")
def empty_folders_in_a_session(room: Room) -> None:
    room.make({"page.txt": "old"})
    with room.session() as session:
        session.scans_and_builds()
        (room.out / "page.txt").unlink()
        room.make({"_site/page.txt/y/z/": ""})
        session.put("page.txt", "new")
        session.builds()
        room.same("the status of the session", 0, session.end().status)
    room.has("page.txt", "new")


# Some of them may be kept, and Subversion needs some of its own.
@case("empty folders that are in no page's way stay, and are no failure")
def empty_folders_elsewhere(room: Room) -> None:
    empty = ("e/f/g", "e/h", "a/e", "k/l/m", "u/v", ".git/refs", ".svn/tmp")
    room.make({"_config.yml": "keep_files: [k, u/]\n", "a/b.txt": "b", **{f"_site/{folder}/": "" for folder in empty}})
    before = set(tree(room.out))
    room.is_built(room.once())
    room.same("what is in _site", before | {"a/b.txt"}, set(tree(room.out)))


@case("empty folders behind a link are not removed")
def empty_folders_behind_a_link(room: Room) -> None:
    (room.outside / "e/f").mkdir(parents=True)
    room.make({"_config.yml": "keep_files: [l, k/m]\n", "page.txt": "old", "a/b.txt": "b", "_site/k/e/": ""})
    before = tree(room.outside)
    (room.out / "l").symlink_to("../../outside")
    (room.out / "k/m").symlink_to("../../../outside")
    room.is_built(room.once())
    with room.session() as session:
        session.scans_and_builds()
        (room.out / "more").symlink_to("../../outside")
        (room.out / "a/more").symlink_to("../../../outside")
        session.put("page.txt", "new")
        session.ask("delete a/b.txt")
        session.builds()
        room.same("the status of the session", 0, session.end().status)
    room.same_tree("outside", before, room.outside)


@case("a folder in the way with a link in it, that comes in a session, stays, and the page is marked")
def link_in_a_folder_in_the_way(room: Room) -> None:
    (room.outside / "e/f").mkdir(parents=True)
    before = tree(room.outside)
    room.make({"page.txt": "old"})
    with room.session() as session:
        session.scans_and_builds()
        (room.out / "page.txt").unlink()
        room.make({"_site/page.txt/e/": ""})
        (room.out / "page.txt/l").symlink_to("../../../outside")
        session.put("page.txt", "new")
        session.marks("page.txt")
        room.same("the status of the session", 0, session.end().status)
    room.same_tree("outside", before, room.outside)
    room.same("what is in the way", True, (room.out / "page.txt/l").is_symlink())


@case("_site stays when nothing is in it, and folders that a removal leaves empty go")
def empty_site_stays(room: Room) -> None:
    room.make({"_config.yml": "title: T\n", "_site/e/f/old.txt": "old", "_site/old.txt": "old"})
    room.is_built(room.once())
    room.same("_site", "a folder", described(room.out))
    room.same("what is in it", {}, tree(room.out))


@case("a site with a fault makes no _site, and takes nothing out of one")
def fault_makes_no_site(room: Room) -> None:
    room.make({"page.html": "---\n---\n{% none %}\n"})
    room.ends(room.once(), 1, "scanned 1", "fault F11 1 page.html")
    room.same("_site", "nothing", described(room.out))
    room.make({"_site/e/": "", "_site/old.txt": "old"})
    room.ends(room.once(), 1, "scanned 1", "fault F11 1 page.html")
    room.same("what is in _site", ["e", "old.txt"], sorted(tree(room.out)))


@case("an empty folder that a process stands in is no failure")
def empty_folder_in_use(room: Room) -> None:
    room.make({"page.txt": "new", "_site/e/f/": ""})
    with subprocess.Popen(["sleep", "5"], cwd=room.out / "e/f") as standing:
        room.is_built(room.once())
        standing.kill()
    room.has("page.txt", "new")


@case("an empty folder that cannot be removed is no failure")
def empty_folder_that_stays(room: Room) -> None:
    room.make({"page.txt": "new", "_site/locked/e/": ""})
    room.open_to_all()
    (room.out / "locked").chmod(0o555)
    room.is_built(room.once(under=room.unprivileged))
    room.has("page.txt", "new")
