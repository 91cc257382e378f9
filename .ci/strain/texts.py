"""What the cases of .ci/hostile have: a site of hostile texts, built with a small stack, and what has to come of it."""
from __future__ import annotations

import sys
from dataclasses import dataclass
from pathlib import Path
from typing import Callable, Mapping, Optional, Sequence, Tuple

from room import Ran, Room, case

LIMITED = Path(__file__).with_name("limited.py")
FRONT = b"---\n---\n"
MIB = 1 << 20
# The longest file, and the longest text that a render makes.
MOST = 16 * MIB
# The stack of each run, in KiB; its threads get as much.
STACK = 1024
# No run takes so many seconds.
SECONDS = 60
# A text four times as long may take so many times as long; twice that is quadratic.
GROWTH = 9
# Shorter times say nothing of growth.
SHORTEST = 0.5

Files = Mapping[str, bytes]


@dataclass(frozen=True)
class Took:
    """What a run took: MiB at the most, and seconds of the processor."""

    mebibytes: float
    seconds: float


def write(room: Room, files: Files) -> None:
    for path, data in files.items():
        place = room.site / path
        place.parent.mkdir(parents=True, exist_ok=True)
        place.write_bytes(data)


def run_limited(room: Room, words: Sequence[str], before: Sequence[str] = ()) -> Tuple[Ran, Took]:
    """A run with a small stack, by the words `before` where there are any, and what it took."""
    place = room.top / "took"
    ran = room.run(*words, under=(sys.executable, str(LIMITED), str(place), str(STACK), *before))
    kibibytes, seconds = place.read_text().split()
    return ran, Took(int(kibibytes) / 1024, float(seconds))


def outputs(room: Room) -> dict[str, bytes]:
    return {str(place.relative_to(room.out)): place.read_bytes() for place in room.out.rglob("*") if place.is_file()}


def same_outputs(room: Room, wanted: Files) -> None:
    """The outputs are these; a long one that differs is told by the place where it does."""
    came = outputs(room)
    room.same("the paths of the outputs", sorted(wanted), sorted(came))
    for path in sorted(set(wanted) & set(came)):
        ours, theirs = came[path], wanted[path]
        if ours != theirs:
            at = next((place for place, (one, other) in enumerate(zip(ours, theirs)) if one != other), min(len(ours), len(theirs)))
            room.differs(f"_site/{path} of {len(ours)} bytes for {len(theirs)}, from byte {at} on", theirs[at : at + 40], ours[at : at + 40])


def built(count: int, written: Optional[int] = None) -> str:
    return f"built rendered={count} reused=0 written={count if written is None else written} removed=0"


def comes_of(room: Room, words: Sequence[str], reply: str, wanted: Files, before: Sequence[str] = ()) -> Took:
    """Builds, and compares the last reply and the outputs; after a fault there are none."""
    ran, took = run_limited(room, words, before)
    room.same(f"the last reply to {' '.join(words)}", reply, ran.lines[-1])
    room.same("the status", 0 if reply.startswith("built ") else 1, ran.status)
    same_outputs(room, wanted)
    return took


def site(
    name: str,
    files: Callable[[], Files],
    reply: str,
    wanted: Callable[[], Files] = dict,
    runs: Sequence[Sequence[str]] = (("build",),),
    mebibytes: Optional[float] = None,
    seconds: float = SECONDS,
) -> None:
    """Enters a case: a site is built by each of these runs, with this last reply and these outputs, in so much memory at the most."""

    def play(room: Room) -> None:
        write(room, files())
        for words in runs:
            took = comes_of(room, words, reply, wanted())
            if mebibytes is not None and took.mebibytes > mebibytes:
                room.differs("the memory", f"at most {mebibytes} MiB", f"{took.mebibytes:.0f} MiB")

    case(name, seconds * len(runs), in_memory=True)(play)


def grows(name: str, files: Callable[[int], Files], wanted: Callable[[int], Files], size: int) -> None:
    """Enters a case: a site of texts of a size, and of four times that, is built as it has to be, and the time grows with the size and not with its square."""

    def play(room: Room) -> None:
        short, long = (spent(room, files, wanted, count) for count in (size, 4 * size))
        if long > SHORTEST and long > GROWTH * short:
            room.differs("the time of four times as much", f"at most {GROWTH} times {short:.2f} s", f"{long:.2f} s")

    case(name, SECONDS, in_memory=True)(play)


def spent(room: Room, files: Callable[[int], Files], wanted: Callable[[int], Files], size: int) -> float:
    write(room, files(size))
    result = wanted(size)
    return comes_of(room, ["once"], built(len(result)), result).seconds
