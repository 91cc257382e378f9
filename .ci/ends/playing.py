"""Plays cases: each in a process and a folder of its own, some side by side, and tells what came of them. `.ci/disk` and `.ci/hostile` are made of it."""
from __future__ import annotations

import contextlib
import importlib
import json
import os
import shutil
import signal
import subprocess
import sys
import tempfile
import time
import traceback
from dataclasses import dataclass
from pathlib import Path
from typing import Iterator, Optional, Sequence

from room import CASES, Case, PassedOver, Room

ROOT = Path(__file__).resolve().parent.parent.parent
# A disk in memory, where folders go quickly.
MEMORY = "/dev/shm"


@dataclass
class Playing:
    """A case that runs in a process of its own, which leads a group."""

    case: Case
    folder: Path
    process: int
    until: float


def play(case: Case, folder: Path, program: Path) -> dict[str, object]:
    """What comes of a case: the lines of its differences, or the reason for which it is passed over."""
    room = Room(folder, program)
    try:
        case.play(room)
    except PassedOver as reason:
        return {"passed over": str(reason)}
    except Exception:
        return {"differences": room.differences + traceback.format_exc().splitlines()}
    return {"differences": room.differences}


def begin(case: Case, folder: Path, program: Path) -> Playing:
    folder.mkdir()
    sys.stdout.flush()
    process = os.fork()
    if process == 0:
        os.setsid()
        signal.signal(signal.SIGTERM, signal.SIG_DFL)
        came = play(case, folder, program)
        (folder / "came").write_text(json.dumps(came))
        os._exit(0)
    return Playing(case, folder, process, time.monotonic() + case.seconds)


def is_over(playing: Playing) -> bool:
    """Whether its process ended, or is out of time; then all that it started is ended."""
    ended, _ = os.waitpid(playing.process, os.WNOHANG)
    if not ended and time.monotonic() < playing.until:
        return False
    end(playing, bool(ended))
    return True


def end(playing: Playing, is_ended: bool) -> None:
    """Ends all that the case has started, and its process if that has not ended yet."""
    with contextlib.suppress(ProcessLookupError):
        os.killpg(playing.process, signal.SIGKILL)
    if not is_ended:
        os.waitpid(playing.process, 0)


def came_of(playing: Playing) -> dict[str, object]:
    try:
        return json.loads((playing.folder / "came").read_text())
    except (OSError, ValueError):
        return {"differences": [f"    wanted: an end within {playing.case.seconds} seconds", "    came:   none"]}


def remove(folder: Path) -> None:
    """Removes a folder, whatever its rights and its depth."""
    subprocess.run(["chmod", "-R", "u+rwx", "--", folder], stderr=subprocess.DEVNULL)
    subprocess.run(["rm", "-rf", "--", folder])


def played(cases: list[Case], disk: Path, memory: Path, side_by_side: int) -> Iterator[tuple[Case, dict[str, object]]]:
    """Each case with what came of it, as it ends; some run side by side."""
    program = program_in(disk)
    waiting, running = list(enumerate(cases)), []
    try:
        while waiting or running:
            while waiting and len(running) < side_by_side:
                number, case = waiting.pop(0)
                running.append(begin(case, (memory if case.in_memory else disk) / str(number), program))
            time.sleep(0.005)
            for playing in [it for it in running if is_over(it)]:
                running.remove(playing)
                yield playing.case, came_of(playing)
                remove(playing.folder)
    finally:
        # Where this run itself is cut off, no case goes on without it.
        for playing in running:
            end(playing, False)


@contextlib.contextmanager
def folder_in(place: Optional[str]) -> Iterator[Path]:
    """A folder of this run in a place (None: where temporary files are), which all users may enter."""
    folder = Path(tempfile.mkdtemp(prefix="sitebuild-disk-", dir=place))
    try:
        folder.chmod(0o755)
        yield folder
    finally:
        remove(folder)


def program_in(work: Path) -> Path:
    """A copy of the program, which users without rights can run too."""
    named = os.environ.get("SITEBUILD") or subprocess.run(
        ["bash", ROOT / ".ci/program"], stdout=subprocess.PIPE, text=True, check=True
    ).stdout.strip()
    copied = work / "sitebuild"
    shutil.copyfile(named, copied)
    copied.chmod(0o755)
    return copied


def play_all(groups: Sequence[str], part: str, side_by_side: int) -> int:
    """Plays the cases of these files whose names hold a part, and prints what failed; the status says whether some passed and none failed."""
    for group in groups:
        importlib.import_module(group)
    cases = [case for case in CASES if part in case.name]
    passed = failed = 0
    # The long ones come first, so that the short ones fill the time beside them.
    cases.sort(key=lambda case: -case.seconds)
    with folder_in(None) as disk, folder_in(MEMORY if os.access(MEMORY, os.W_OK) else None) as memory:
        for case, came in played(cases, disk, memory, side_by_side):
            if "passed over" in came:
                print(f"passed over: {case.name} ({came['passed over']})")
            elif came["differences"]:
                failed += 1
                print(f"failed: {case.name}", *(f"  {line}" for line in came["differences"]), sep="\n", flush=True)
            else:
                passed += 1
    print(f"{passed} passed, {failed} failed")
    return 0 if passed and not failed else 1
