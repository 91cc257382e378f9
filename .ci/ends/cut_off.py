"""Builds that are cut off: by a limit of the system in the middle of a page, and by kills."""
from __future__ import annotations

import os
import random
import time
from pathlib import Path

from room import CONTROL, Room, case
from watching import IN_MODIFY, IN_MOVED_TO, Watch


@case("after `trap '' XFSZ` a page past `ulimit -f` is marked, and the old one is whole")
def file_size_limit(room: Room) -> None:
    limited = ("bash", "-c", "trap '' XFSZ; ulimit -f 64; exec \"$@\"", "bash")
    room.make({"long.txt": "o" * 100000, "short.txt": "old", "grows.txt": "old"})
    room.is_built(room.once())
    room.make({"long.txt": "n" * 100000, "short.txt": "new", "grows.txt": "n" * 100000, "fresh.txt": "n" * 100000, "fits.txt": "n" * 60000})
    room.is_marked(room.once(under=limited), "fresh.txt", "grows.txt", "long.txt")
    for path, text in {"long.txt": "o" * 100000, "grows.txt": "old", "short.txt": "new", "fits.txt": "n" * 60000}.items():
        room.has(path, text)
    room.lacks("fresh.txt")
    room.same("the names in _site", ["fits.txt", "grows.txt", "long.txt", "short.txt"], sorted(os.listdir(room.out)))
    room.is_built(room.once())
    room.has("long.txt", "n" * 100000)


@case("after `trap '' XFSZ` a short page past `ulimit -f` is marked, and the next run mends it")
def file_size_limit_of_a_short_page(room: Room) -> None:
    limited = ("bash", "-c", "trap '' XFSZ; ulimit -f 8; exec \"$@\"", "bash")
    room.make({"page.txt": "o" * 20000, "short.txt": "old"})
    room.is_built(room.once())
    room.make({"page.txt": "n" * 20000, "short.txt": "new"})
    room.is_marked(room.once(under=limited), "page.txt")
    room.has("short.txt", "new")
    room.is_built(room.once())
    room.has("page.txt", "n" * 20000)


PAGES = 160
LINES = ("an old line\n", "this line is new\n")


def page(number: int, state: int) -> str:
    """A page in one of its two states: most are of one block, some of several, a few are too long to be written over. The second state is longer, so that some
    pages need more blocks, and others as many."""
    count = 5000 if number % 40 == 0 else number * 7 if number % 4 == 0 else number
    return LINES[state] * count + f"{number}\n"


def make_states(room: Room) -> list[Path]:
    """Makes a site in each state; the output is moved from one to the other."""
    folders = [room.top / "old", room.top / "new"]
    for state, folder in enumerate(folders):
        folder.mkdir()
        for number in range(PAGES):
            (folder / f"{number}.txt").write_text(page(number, state))
    return folders


def enter(room: Room, folder: Path) -> None:
    """From here on the program runs in this folder, with the output of before."""
    if room.out.exists():
        room.out.rename(folder / "_site")
    room.site, room.out = folder, folder / "_site"


def torn(room: Room) -> list[str]:
    """The pages that are neither the old nor the new one; one that is not there, or empty, is told apart."""
    found = []
    for number in range(PAGES):
        place = room.out / f"{number}.txt"
        text = place.read_text() if place.is_file() else None
        if text not in (page(number, 0), page(number, 1)):
            found.append(f"{number}.txt: {'not there' if text is None else f'{len(text)} bytes'}")
    return found


def after_a_kill(room: Room) -> None:
    """What a killed run may leave: one page that is neither, and the name beside."""
    found = torn(room)
    room.same(f"at most one page that is neither old nor new ({found})", True, len(found) <= 1)
    room.same("pages that are empty or not there", [], [it for it in found if it.endswith((": not there", ": 0 bytes"))])
    others = set(os.listdir(room.out)) - {f"{number}.txt" for number in range(PAGES)}
    room.same(f"the one name besides the pages' has a control character ({sorted(others)})", True, not others or len(others) == 1 and bool(CONTROL.search(others.pop())))


def after_a_build(room: Room, state: int) -> None:
    wrong = [number for number in range(PAGES) if (room.out / f"{number}.txt").read_text() != page(number, state)]
    room.same("wrong pages after the next build", [], wrong)
    room.same("the number of names after the next build", PAGES, len(os.listdir(room.out)))


def is_in_the_middle(room: Room, state: int) -> bool:
    """Whether some pages are the new ones, and others are not."""
    new = sum((room.out / f"{number}.txt").read_text() == page(number, state) for number in range(PAGES))
    return 0 < new < PAGES


def seconds_of_writing(room: Room) -> float:
    """How long a run changes pages."""
    with Watch(room.out, IN_MODIFY | IN_MOVED_TO) as watch:
        run = room.start(["once"])
        watch.wait(10)
        began = time.monotonic()
        run.communicate()
        return time.monotonic() - began


@case("up to 200 kills in the middle of a build: at most one page is neither old nor new, and the next build mends it", 40)
def kills(room: Room) -> None:
    states = make_states(room)
    enter(room, states[0])
    room.is_built(room.once())
    enter(room, states[1])
    longest = seconds_of_writing(room)
    state, until, in_the_middle = 1, time.monotonic() + 15, 0
    for _ in range(200):
        if time.monotonic() > until or room.differences:
            break
        state = 1 - state
        enter(room, states[state])
        with Watch(room.out, IN_MODIFY | IN_MOVED_TO) as watch:
            run = room.start(["once"])
            watch.wait(10)
        time.sleep(random.uniform(0, longest))
        run.kill()
        run.communicate()
        after_a_kill(room)
        in_the_middle += is_in_the_middle(room, state)
        room.is_built(room.once())
        after_a_build(room, state)
    room.same("whether a run was killed in the middle", True, in_the_middle > 0)
