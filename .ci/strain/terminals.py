"""Names and values with control characters and with lines that look like replies: none of it reaches a terminal as it is, and no reply can be forged."""
from __future__ import annotations

import re
from typing import Mapping, Sequence

from room import Room, case
from client import put_lines
from texts import FRONT, built, write

CONTROLS = [chr(code) for code in (*range(1, 32), 127)]
# They are control characters too, but a path may have them, and a reply writes a path as it is, but on a line `why`.
WIDE = [chr(code) for code in range(0x80, 0xA0)]
ESCAPE = "\x1b[31m"
FORGED = "\nfault F1 0 forged.html\n"
RAW = re.compile("[\x00-\x09\x0b-\x1f\x7f]")
# A fault at a known place.
FAULTY = FRONT + b"{{ 1 | divided_by: 0 }}"


def replies(room: Room, what: str, files: Mapping[str, bytes], wanted: Sequence[str], words: Sequence[str] = ("once",), script: bytes = b"") -> str:
    """A run whose replies are just these; what it says on standard error. Room looks whether that is plain."""
    write(room, files)
    ran = room.ended(room.start(words, **({"stdin": -1} if script else {})), script)
    room.same(f"{what}: the replies", list(wanted), ran.lines)
    room.same(f"{what}: control characters in them", [], RAW.findall(ran.replies))
    return ran.said


def fronted(value: str) -> bytes:
    return f"---\n{value}\n---\nx".encode()


@case("no control character of a name of a source reaches a terminal")
def names_of_sources(room: Room) -> None:
    for character in CONTROLS:
        for path in (f"a{character}.html", f"b{character}/a.html", f"_data/{character}.yml", f"_posts/2020-01-01-{character}.md"):
            said = replies(room, repr(path), {path: FAULTY}, ["scan-fault"])
            room.same(f"{path!r}: whether it is told with a question mark", True, "?" in said)
            (room.site / path).unlink()


@case("no control character of a name in _site reaches a terminal")
def names_of_outputs(room: Room) -> None:
    for character in CONTROLS:
        path = f"_site/a{character}b"
        replies(room, repr(path), {"a.html": FRONT, path: b"x"}, ["scanned 1", "out-fault 0"])
        (room.site / path).unlink()


@case("a control character behind the first 127 stands in a reply as in the path, and nowhere else")
def wide_controls(room: Room) -> None:
    for character in WIDE:
        path = f"a{character}.html"
        said = replies(room, repr(path), {path: FAULTY}, ["scanned 1", f"fault F15 1 {path}"])
        room.matches(f"{path!r}: standard error", r"^sitebuild: a\?\.html:3: ", said)
        (room.site / path).unlink()


@case("no value of front matter reaches a terminal, or makes a line of the replies")
def values(room: Room) -> None:
    for bad in (ESCAPE, FORGED, "\x07", "\r", "\x7f", "\0"):
        text = '"/' + "".join(f"\\x{ord(character):02x}" for character in bad) + '"'
        for path, key, fault in (
            ("a.html", "date", "F7"),
            ("a.html", "permalink", "F6"),
            ("_posts/2020-01-01-a.md", "slug", "F6"),
            ("_posts/2020-01-01-a.md", "categories", "F6"),
        ):
            value = f"{key}: [{text}]" if key == "categories" else f"{key}: {text}"
            replies(room, value, {path: fronted(value)}, ["scanned 1", f"fault {fault} 0 {path}"])
            (room.site / path).unlink()
        for key in ("permalink", "timezone", "paginate", "collections", "exclude"):
            value = f"{key}: {{{text}: [1]}}"
            replies(room, value, {"_config.yml": value.encode()}, ["scanned 1", "fault F6 0 _config.yml"])
        (room.site / "_config.yml").unlink()


@case("no text of a template reaches a terminal, or makes a line of the replies")
def templates(room: Room) -> None:
    for template, fault in (
        ("{%% include %s.html %%}", "F12"),
        ("{%% link %s %%}", "F13"),
        ("{%% post_url %s %%}", "F13"),
        ('{{ "2020-01-01" | date: "%%%s" }}', "F22"),
        ('{%% if 1 < "%s" %%}{%% endif %%}', "F23"),
        ("{{ %s }}", "F10"),
        ("{%% %s %%}", "F10"),
    ):
        body = FRONT + (template % ESCAPE).encode()
        replies(room, repr(body), {"a.html": body}, ["scanned 1", f"fault {fault} 1 a.html"])


@case("no line of a session, and no word, is said again")
def lines_and_words(room: Room) -> None:
    for line, kind in ((f"put a{ESCAPE} 1\nx", 4), ("put a\rb 1\nx", 4), ("put a\tb 1\nx", 4), (f"delete {ESCAPE}\n", 4), (f"{ESCAPE}\n", 3), (f"time {ESCAPE}\n", 9)):
        replies(room, repr(line), {}, [f"script 1 {kind}"], ["session"], line.encode())
    for words, kind in (([ESCAPE], 2), (["once", ESCAPE], 3), (["build", f"--jobs={ESCAPE}"], 3), (["make", "1", ESCAPE], 4), (["once", FORGED], 3)):
        replies(room, repr(words), {}, [f"usage {kind}"], words)


@case("no name that tells why an item was rendered makes a line of its own")
def reasons(room: Room) -> None:
    name = ESCAPE + FORGED + "\x85\x9b"
    shown = re.sub(r"[\x00-\x1f\x7f-\x9f]", "?", name)
    page = f'---\n"\\e[31m\\nfault F1 0 forged.html\\n\\x85\\x9b": %d\n---\n{{{{ page["{name}"] }}}}{{{{ site["{name}"] }}}}'
    setting = b'"\\e[31m\\nfault F1 0 forged.html\\n\\x85\\x9b": 2\n'
    edits = [{"a.html": (page % 1).encode()}, {"a.html": (page % 2).encode()}, {"_config.yml": setting}]
    script = b"".join(put_lines(edit) + b"build\n" for edit in edits)
    done = built(1)
    wanted = ["ok", "why a.html new", done, "ok", f"why a.html var a.html {shown}", done, "ok", f"why a.html site {shown}", done]
    replies(room, "a session", {}, wanted, ["session", "--why"], script)


@case("a word that is not UTF-8 is replied to as a wrong one")
def no_text(room: Room) -> None:
    room.ends(room.run(b"\xff"), 2, "usage 1")
