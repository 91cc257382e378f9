"""Names that are no path of a site, and what a terminal must not get."""
from __future__ import annotations

from functools import partial

from room import Room, case

# A name that is no path, and how it is shown.
BAD_NAMES = {
    "a tab": ("a\tb.txt", r"a\?b\.txt"),
    "a line end": ("a\nb.txt", r"a\?b\.txt"),
    "an escape": ("a\x1b[31mb.txt", r"a\?\[31mb\.txt"),
    "a byte 127": ("a\x7fb.txt", r"a\?b\.txt"),
}


def fails_by_name(path: str, shown: str, room: Room) -> None:
    room.make({path: "x", "b.txt": "b", "_site/old.txt": "old"})
    ran = room.once()
    room.ends(ran, 3, "scan-fault")
    room.matches("standard error", shown, ran.said)
    room.same("the lines of standard error", 1, ran.said.count("\n"))
    room.has("old.txt", "old")


for name, (bad, shown) in BAD_NAMES.items():
    case(f"a name with {name} at the top fails the scan, and is shown with ?")(partial(fails_by_name, bad, rf"\b{shown}"))
    case(f"a name with {name} in a folder fails the scan, and is shown with ?")(partial(fails_by_name, f"sub/{bad}", rf"\bsub/{shown}"))
    case(f"a folder's name with {name} fails the scan, and is shown with ?")(partial(fails_by_name, f"{bad}/in.txt", rf"\b{shown}"))
case("a name that is not UTF-8 in a folder fails the scan, and its folder is told")(partial(fails_by_name, "sub/caf\udce9.txt", r"\bsub\b"))
# The folder is listed before the configuration is read.
case("a bad name below what exclude names fails the scan, and is shown with ?")(partial(fails_by_name, "tmp/a\tb.txt", r"\btmp/a\?b\.txt"))
# U+009B begins an escape on some terminals; it makes a path, so that alone this name would be no fault.
case("a bad name with U+009B in it is shown with ?, too")(partial(fails_by_name, "a\x9bb\tc", r"\ba\?{1,2}b\?c"))


def cannot_be_read(path: str, closed: str, shown: str, room: Room) -> None:
    room.make({path: "x", "b.txt": "b", "_site/old.txt": "old"})
    room.open_to_all()
    (room.site / closed).chmod(0)
    ran = room.once(under=room.unprivileged)
    room.ends(ran, 3, "scan-fault")
    room.matches("standard error", shown, ran.said)
    room.has("old.txt", "old")


case("a file that cannot be read is named")(partial(cannot_be_read, "sub/secret.txt", "sub/secret.txt", r"\bsub/secret\.txt\b"))
case("a file that cannot be read, with U+009B in its name, is named with ?")(partial(cannot_be_read, "se\x9bcret.txt", "se\x9bcret.txt", r"\bse\?{1,2}cret\.txt\b"))
case("a folder that cannot be read is named")(partial(cannot_be_read, "sub/closed/x.txt", "sub/closed", r"\bsub/closed\b"))

# ---- bad names that are passed over


def is_passed_over(files: dict[str, str], room: Room) -> None:
    room.make({"b.txt": "b", **files})
    room.is_built(room.once())
    room.has("b.txt", "b")


case("a hidden name with a tab at the top is passed over")(partial(is_passed_over, {".x\ty": "x"}))
case("a hidden name with a tab in a folder is passed over")(partial(is_passed_over, {"sub/.x\ty": "x"}))
case("names with a tab that _, # and ~ mark are passed over")(partial(is_passed_over, {"_x\ty": "x", "#x\ty#": "x", "x\ty~": "x", "~x\ty": "x"}))
case("a hidden folder's name with a tab is passed over")(partial(is_passed_over, {".x\ty/in.txt": "x"}))
case("names that are not UTF-8 below a hidden folder are passed over")(partial(is_passed_over, {".cache/caf\udce9": "x", "sub/#x/y/caf\udce9": "x"}))
case("bad names below tools' folders are passed over")(
    partial(is_passed_over, {f"{tool}/a\tb": "x" for tool in ("node_modules", ".git", ".svn", ".hg", ".jekyll-cache", ".sass-cache", "sub/node_modules")})
)
case("names that are not UTF-8 below tools' folders are passed over")(partial(is_passed_over, {"node_modules/caf\udce9": "x", ".git/caf\udce9": "x"}))
case("bad names below what is always excluded are passed over")(
    partial(is_passed_over, {f"{folder}/a\tb": "x" for folder in ("vendor/bundle", "vendor/cache", "vendor/gems/x", "vendor/ruby", "gemfiles")})
)


@case("a link with a tab in its name is passed over")
def link_with_a_bad_name(room: Room) -> None:
    room.make({"b.txt": "b"})
    (room.site / "a\tb").symlink_to("b.txt")
    room.is_built(room.once())
    room.has("b.txt", "b")


# ---- what is shown, and what is replied


@case("replies keep the bytes of a name with U+0080 to U+009F, and standard error shows ?")
def replies_keep_bytes(room: Room) -> None:
    room.make({"a\x9b\x85b.html": "---\n---\n{% none %}\n"})
    ran = room.once()
    room.ends(ran, 1, "scanned 1", "fault F11 1 a\x9b\x85b.html")
    room.matches("standard error", r"^sitebuild: a\?{2,4}b\.html:3: ", ran.said)


@case("a marked path keeps its bytes in the reply")
def marked_path_keeps_bytes(room: Room) -> None:
    room.make({"page": "---\npermalink: /.git/a\x9bb\n---\nnew"})
    room.is_marked(room.once(), ".git/a\x9bb")


@case("a page with U+0080 to U+009F in its name is built")
def odd_names_are_built(room: Room) -> None:
    room.make({"a\x9bb.txt": "new", "-x": "x", "a b": "ab", "a\u2028b": "line"})
    room.is_built(room.once())
    for path, text in {"a\x9bb.txt": "new", "-x": "x", "a b": "ab", "a\u2028b": "line"}.items():
        room.has(path, text)


@case("what a fault quotes, and words that are no command, reach no terminal with their control characters")
def quoted_words(room: Room) -> None:
    for text in ("{% a\x9b31m %}", "{% a\x1b[31m %}", "{{ '2020-01-01' | date: '%\x9b' }}", "{% include a\x1b]0;x\x07.html %}", "{{ 'x\x9b' | plus: }}"):
        room.make({"page.html": f"---\n---\n{text}\n"})
        room.same(f"the status of {text!r}", 1, room.once().status)
    room.make({"page.html": "---\na: [\x1b\n---\n"})
    room.same("the status", 1, room.once().status)
    for words in (["\x1b[31m"], ["once", "--\x9b"], ["build", "--jobs", "\x07"]):
        room.same(f"the status of {words}", 2, room.run(*words).status)


@case("a name in _site that no page can have fails the list, and nothing is touched")
def bad_name_in_the_output(room: Room) -> None:
    room.make({"page.txt": "new", "_site/old.txt": "old", "_site/sub/a\tb": "x"})
    room.fails_the_list(room.once(), "_site")
    room.has("old.txt", "old")
    room.lacks("page.txt")
