"""What `keep_files` names, and what cannot be listed."""
from __future__ import annotations

from room import Room, case


@case("keep_files: [uploads/] keeps uploads and all below it, and nothing besides")
def keeps_a_folder_with_a_slash(room: Room) -> None:
    kept = {"uploads/a": "mine", "uploads/b/c": "mine", "d/e/f": "mine"}
    gone = {"uploads2/x": "old", "uploads.txt": "old", "d/x": "old"}
    room.make({"_config.yml": "keep_files: [uploads/, d/e/]\n", "page.txt": "new", **{f"_site/{path}": text for path, text in {**kept, **gone}.items()}})
    room.is_built(room.once())
    for path, text in kept.items():
        room.has(path, text)
    for path in gone:
        room.lacks(path)


@case("keep_files: [a.txt/] keeps the file a.txt, too")
def keeps_a_file_with_a_slash(room: Room) -> None:
    room.make({"_config.yml": "keep_files: [a.txt/]\n", "_site/a.txt": "mine"})
    room.is_built(room.once())
    room.has("a.txt", "mine")


@case("a folder of _site that cannot be read fails the list, and nothing is written")
def output_that_cannot_be_read(room: Room) -> None:
    room.make({"page.txt": "new", "_site/page.txt": "old", "_site/closed/x": "x"})
    room.open_to_all()
    (room.out / "closed").chmod(0)
    room.fails_the_list(room.once(under=room.unprivileged), "_site")
    room.has("page.txt", "old")
