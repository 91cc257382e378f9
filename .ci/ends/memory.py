"""Want of memory is told as that, and blamed on no end."""
from __future__ import annotations

import os
import shutil
import subprocess
from collections import Counter
from functools import partial
from pathlib import Path

from room import PassedOver, Ran, Room, case, meddling, text_of

REFUSED = Path(__file__).resolve().parent.parent / "refused.c"
# So many runs one after another that went well: the growths that are refused lie behind the last.
ENOUGH = 40
MOST = 2000

# A site with something for each part of the ends: folders, a page that is right, one to be written over, surplus, and empty folders in the way.
SOURCE = {
    "_config.yml": "keep_files: [kept]\n",
    "a/b/page.html": "---\n---\n{{ 1 | plus: 1 }}\n",
    "long.txt": "n" * 70000,
    "same.txt": "same",
    "short.txt": "new",
    "way": "new",
}
OUTPUT = {"same.txt": "same", "short.txt": "old", "surplus/old.txt": "old", "way/": "", "kept/k": "mine"}
SCRIPT = "scan\nbuild\nput short.txt 5\nnewerput more/x.txt 1\nxdelete a/b/page.html\nscan\nbuild\nend\n"


def run_refused(room: Room, library: Path, number: int, script: str, goes_on: bool) -> Ran:
    """A run whose growth of this number is refused (of number 0, none)."""
    refusal = {"LD_PRELOAD": str(library), "REFUSE": str(number), **({"REFUSE_ON": "1"} if goes_on else {})}
    process = room.start(["session"] if script else ["once"], stdin=subprocess.PIPE, env={**os.environ, **refusal})
    return room.ended(process, script.encode())


def renew_output(room: Room) -> None:
    """Makes the output what it was before the first run."""
    shutil.rmtree(room.out, ignore_errors=True)
    room.make({f"_site/{path}": text for path, text in OUTPUT.items()})


def is_right(ran: Ran) -> bool:
    """Whether the run went as if nothing had been refused, or ended for want of memory; neither blames an end."""
    if "fault" in ran.replies:
        return False
    return ran.status == 8 and ran.said.count("\n") == 1 or ran.status == 0 and ran.lines[-1].startswith("built ")


def refused_in_turn(script: str, goes_on: bool, room: Room) -> None:
    """Refuses each growth in turn, and tells those that were answered otherwise than as want of memory."""
    library = meddling(room, REFUSED)
    room.make(SOURCE)
    renew_output(room)
    room.is_built(run_refused(room, library, 0, script, goes_on))
    if room.differences:
        return
    renew_output(room)
    if run_refused(room, library, 1, script, True).status == 0:
        raise PassedOver("this program does not take its memory by the C library's malloc")
    statuses, well = Counter(), 0
    for number in range(1, MOST):
        renew_output(room)
        ran = run_refused(room, library, number, script, goes_on)
        statuses[ran.status] += 1
        if not is_right(ran):
            room.differs(f"growth {number}", "status 8, or all as ever", (ran.status, ran.lines, ran.said[:80]))
        well = well + 1 if ran.status == 0 else 0
        if well == ENOUGH:
            break
    room.same(f"whether all growths were refused ({dict(statuses)})", ENOUGH, well)


for name, script in (("once", ""), ("a session", SCRIPT)):
    for goes_on, how in ((False, "alone"), (True, "with all after it")):
        case(f"each growth of memory of {name}, refused {how}, is told as want of memory", 25, in_memory=True)(partial(refused_in_turn, script, goes_on))


@case("a run under `ulimit -v` is done, or ends for want of memory, and blames no end", 20, in_memory=True)
def address_space(room: Room) -> None:
    room.make({"long.txt": "n" * (12 << 20), "more.txt": "m" * (3 << 20), **{f"d{number}/p.txt": "p" * 2000 for number in range(200)}})
    statuses = Counter()
    for size in range(3000, 60000, 900):
        shutil.rmtree(room.out, ignore_errors=True)
        process = room.start(["once"], ("sh", "-c", f'ulimit -v {size}; exec "$@"', "sh"))
        replies, said = process.communicate()
        # Below some MiB the system cannot start the program.
        if process.returncode != 0 and not text_of(said).startswith("sitebuild: "):
            continue
        statuses[process.returncode] += 1
        room.same(f"with {size} KiB: whether the status is 0 or 8", True, process.returncode in (0, 8))
        room.same(f"with {size} KiB: whether a fault is replied", False, "fault" in text_of(replies))
    if not statuses:
        raise PassedOver("this program cannot be started in so little memory")
    room.same(f"whether both came ({dict(statuses)})", {0, 8}, set(statuses))
