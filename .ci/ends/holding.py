"""Two runs on one output: the second is refused, and goes when the first has ended."""
from __future__ import annotations

import os
from contextlib import ExitStack

from room import Room, case, meddling


def is_held(room: Room, *words: str) -> None:
    room.fails_the_list(room.run(*words), r"\banother\b.*_site|_site.*\banother\b")


@case("a second run on one _site is refused in one line, and goes when the first has ended")
def two_runs(room: Room) -> None:
    room.make({"page.txt": "old", "_site/": ""})
    with room.session() as first:
        first.scans_and_builds()
        room.make({"page.txt": "new"})
        is_held(room, "once")
        is_held(room, "build", "--jobs", "2")
        room.has("page.txt", "old")
        checked = room.run("check")
        room.ends(checked, 0, "clean")
        room.same("the status of the session", 0, first.end().status)
    room.is_built(room.once())
    room.has("page.txt", "new")


@case("a second run is refused where the first has made _site itself")
def two_runs_without_a_site(room: Room) -> None:
    room.make({"a/page.txt": "old"})
    with room.session() as first:
        first.scans_and_builds()
        is_held(room, "once")


@case("a session that was refused builds when the first has ended")
def two_sessions(room: Room) -> None:
    room.make({"page.txt": "old", "_site/": ""})
    with room.session() as first, room.session() as second:
        first.scans_and_builds()
        second.ask("scan")
        room.same("the reply to build", ["out-fault 0"], second.ask("build"))
        room.same("the status of the first", 0, first.end().status)
        second.put("page.txt", "new")
        second.builds()
        room.same("the status of the second", 0, second.end().status)
    room.has("page.txt", "new")


@case("a run that was killed holds _site no longer")
def run_that_was_killed(room: Room) -> None:
    room.make({"page.txt": "new", "_site/": ""})
    with room.session() as first:
        first.scans_and_builds()
    room.is_built(room.once())


@case("a session that has built nothing holds nothing")
def session_without_a_build(room: Room) -> None:
    room.make({"page.txt": "new", "_site/": ""})
    with room.session() as first:
        first.ask("scan")
        room.is_built(room.once())


@case("of several runs that begin in one moment without a _site, one builds and the others are refused", in_memory=True)
def runs_in_one_moment(room: Room) -> None:
    room.make({"page.txt": "new"})
    # Each waits before it makes a folder, so that all of them have seen that there is none.
    slow = {**os.environ, "LD_PRELOAD": str(meddling(room)), "SLOW_MKDIR": "300000"}
    with ExitStack() as stack:
        sessions = [stack.enter_context(room.session(env=slow)) for _ in range(4)]
        for session in sessions:
            session.ask("scan")
        for session in sessions:
            session.client.give(b"build\n")
        replies = sorted(session.client.hear().split()[0] for session in sessions)
    room.same("the replies", ["built", "out-fault", "out-fault", "out-fault"], replies)
