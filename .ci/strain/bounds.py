"""What a host sets around a build of another's site: a limit of time and one of memory. Where one is passed, nothing was written."""
from __future__ import annotations

import re
import time
from pathlib import Path

from room import PassedOver, Room, case, tree
from texts import FRONT, MIB, STACK, write

# 100 loops in each other over ten elements: no machine comes to their end.
ENDLESS = FRONT + b"{% for i in (1..10) %}" * 100 + b"{% endfor %}" * 100
# A list that has a million elements, and then twice as many at each turn.
WIDE = FRONT + b"{% assign l = (1..1000000) | reverse %}{% for i in (1..30) %}{% assign l = l | concat: l %}{% endfor %}"
# Markdown that takes many times its length.
QUOTES = FRONT + b">" * (8 * MIB)
OLD = {"_site/a.html": b"an old page", "_site/old.html": b"old"}


def bounded(room: Room, page: str, text: bytes, limit: str, status: int) -> None:
    """A build within a limit of the shell, that is to end with this status and to leave `_site` as it was."""
    write(room, {page: text, "b.html": FRONT + b"b", **OLD})
    before = tree(room.out)
    for words in (("once",), ("build", "--jobs", "4")):
        ran = room.run(*words, under=("sh", "-c", f'{limit} "$@"', "sh"))
        room.same(f"{limit} {' '.join(words)}: the status", status, ran.status)
        room.same("the replies", ["scanned 2"], ran.lines)
        room.same_tree("_site", before, room.out)


@case("loops that no machine comes to the end of are ended by `timeout`, and nothing is written", 30)
def endless(room: Room) -> None:
    bounded(room, "a.html", ENDLESS, "timeout 2", 124)


@case("loops that no machine comes to the end of are ended by `ulimit -t`, and nothing is written", 30)
def processor_time(room: Room) -> None:
    # The shell tells the signal SIGKILL or SIGXCPU as 128 and its number, or is ended by it itself.
    write(room, {"a.html": ENDLESS, **OLD})
    before = tree(room.out)
    ran = room.run("once", under=("sh", "-c", 'ulimit -t 1; exec "$@"', "sh"))
    room.same("whether a signal ended it", True, ran.status < 0)
    room.same("the replies", ["scanned 1"], ran.lines)
    room.same_tree("_site", before, room.out)


@case("a list that grows without end is stopped by `ulimit -v`, and nothing is written", 60)
def endless_list(room: Room) -> None:
    bounded(room, "a.html", WIDE, "ulimit -v 500000;", 8)


@case("Markdown that takes much memory is stopped by `ulimit -v`, and nothing is written", 60)
def much_memory(room: Room) -> None:
    bounded(room, "a.md", QUOTES, "ulimit -v 500000;", 8)


def stacks(process: int) -> list[int]:
    """The sizes in KiB of what lies behind a guard page in the memory of a process: the stacks of its threads."""
    found, guarded = [], None
    for line in Path(f"/proc/{process}/maps").read_text().splitlines():
        begin, end, rights = re.match(r"([0-9a-f]+)-([0-9a-f]+) (....)", line).groups()
        if guarded == begin and rights == "rw-p":
            found.append((int(end, 16) - int(begin, 16)) // 1024)
        guarded = end if rights == "---p" else None
    return found


@case("threads have a stack as large as `ulimit -s` says", 30)
def stacks_of_threads(room: Room) -> None:
    if not Path("/proc/self/maps").exists():
        raise PassedOver("it needs /proc")
    for size in (STACK, 4 * STACK):
        write(room, {f"{number}.html": ENDLESS for number in range(4)})
        process = room.start(("build", "--jobs", "4"), ("sh", "-c", f'ulimit -s {size}; exec "$@"', "sh"))
        until = time.monotonic() + 5
        while stacks(process.pid).count(size) < 3 and time.monotonic() < until:
            time.sleep(0.05)
        found = stacks(process.pid)
        process.kill()
        process.communicate()
        room.same(f"whether three threads have {size} KiB ({found})", True, found.count(size) >= 3)
