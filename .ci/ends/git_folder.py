"""`.git` in the output, which belongs to Git."""
from __future__ import annotations

import os

from room import Room, case, tree

GIT = {"_site/.git/config": "mine", "_site/.git/objects/12/34": "mine", "_site/.git/refs/tags/": ""}


def git_page(path: str, text: str = "new") -> dict[str, str]:
    """A source that has its page at this path of the output."""
    return {"page": f"---\npermalink: /{path}\n---\n{text}"}


@case("a page at .git/config is not written, but marked with a sentence of its own")
def page_in_git(room: Room) -> None:
    room.make({**GIT, **git_page(".git/config"), "b.txt": "b"})
    before = tree(room.out / ".git")
    ran = room.once()
    room.is_marked(ran, ".git/config")
    room.matches("standard error", r"\.git\b", ran.said)
    room.has("b.txt", "b")
    room.same_tree("_site/.git", before, room.out / ".git")


@case("a page at .git/config is marked where there is no .git, and none is made")
def page_in_no_git(room: Room) -> None:
    room.make(git_page(".git/config"))
    ran = room.once()
    room.is_marked(ran, ".git/config")
    room.matches("standard error", r"\.git\b", ran.said)
    room.lacks(".git")


@case("a page below a folder .git deeper in _site is marked, and nothing is made")
def page_in_deep_git(room: Room) -> None:
    room.make({**git_page("a/b/.git/hooks/pre-commit"), "a/b/c.txt": "c"})
    room.is_marked(room.once(), "a/b/.git/hooks/pre-commit")
    room.has("a/b/c.txt", "c")
    room.lacks("a/b/.git")


@case("a page whose own name is .git is marked")
def page_named_git(room: Room) -> None:
    room.make({**git_page(".git"), "_site/.git": "gitdir: ../../outside"})
    room.is_marked(room.once(), ".git")
    room.has(".git", "gitdir: ../../outside")


@case("names that only begin with .git are pages as others")
def names_like_git(room: Room) -> None:
    room.make({"_config.yml": "include: [.gitignore, .github]\n", ".gitignore": "i", ".github/x": "x", **git_page("a/.gitx/y")})
    room.is_built(room.once())
    for path, text in {".gitignore": "i", ".github/x": "x", "a/.gitx/y": "new"}.items():
        room.has(path, text)


@case("a page that was marked below .git is no fault any more when its source is gone")
def page_in_git_goes(room: Room) -> None:
    room.make({**GIT, **git_page(".git/config")})
    before = tree(room.out / ".git")
    with room.session() as session:
        room.matches("the reply to scan", "^scanned ", session.ask("scan")[0])
        session.marks(".git/config")
        session.marks(".git/config")
        session.ask("delete page")
        session.builds()
        room.same("the status of the session", 0, session.end().status)
    room.same_tree("_site/.git", before, room.out / ".git")


@case("_site/.git stays with its empty folders, whatever keep_files says")
def git_stays(room: Room) -> None:
    room.make({**GIT, "_config.yml": "keep_files: [other]\n", "b.txt": "b", "_site/old.txt": "old"})
    before = tree(room.out / ".git")
    room.is_built(room.once())
    room.lacks("old.txt")
    room.same_tree("_site/.git", before, room.out / ".git")


@case("a file _site/.git, a worktree's, stays, whatever keep_files says")
def git_file_stays(room: Room) -> None:
    room.make({"_config.yml": "keep_files: [other]\n", "b.txt": "b", "_site/.git": "gitdir: ../../outside"})
    room.is_built(room.once())
    room.has(".git", "gitdir: ../../outside")


@case("a link _site/.git stays, and nothing is written through it")
def git_link_stays(room: Room) -> None:
    room.make({"_config.yml": "keep_files: [other]\n", **git_page(".git/config"), "b.txt": "b", "_site/": ""})
    (room.outside / "config").write_text("mine")
    before = tree(room.outside)
    (room.out / ".git").symlink_to("../../outside")
    room.is_marked(room.once(), ".git/config")
    room.same("what .git is", True, (room.out / ".git").is_symlink())
    room.same_tree("outside", before, room.outside)


@case("_site/.git is not walked: names that no page can have do not matter there")
def git_is_not_walked(room: Room) -> None:
    room.make({**GIT, "b.txt": "b", "_site/.git/refs/heads/caf\udce9": "mine", "_site/.git/a\tb": "mine"})
    before = tree(room.out / ".git")
    room.is_built(room.once())
    room.same_tree("_site/.git", before, room.out / ".git")


@case("removed=N counts no file that stays, as one in .GIT")
def git_in_capitals(room: Room) -> None:
    room.make({"b.txt": "b", "_site/.GIT/x": "old", "_site/.Git": "old"})
    ran = room.once()
    room.is_built(ran)
    left = sum(os.path.lexists(room.out / path) for path in (".GIT/x", ".Git"))
    room.matches("the last reply", f" removed={2 - left}$", ran.lines[-1])
