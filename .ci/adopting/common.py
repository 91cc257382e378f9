"""What the checks of `site adopt` share."""
from __future__ import annotations

import ctypes
import os
import shutil
import signal
import subprocess
import sys
import time
from concurrent.futures import ProcessPoolExecutor
from dataclasses import dataclass, field
from pathlib import Path
from typing import Callable, Mapping, Union

TOP = Path(__file__).resolve().parents[2]
PARTS = TOP / "share" / "site"
PROGRAM = os.environ["SITEBUILD"]
# Where Debian puts the themes and plugins that it packs.
GEMS = Path("/usr/share/rubygems-integration/all/gems")
# A number of <sys/prctl.h>.
PR_SET_PDEATHSIG = 1
sys.path.insert(0, str(PARTS))


@dataclass
class Failures:
    """What was found wrong."""

    found: list[str] = field(default_factory=list)

    def add(self, what: str) -> None:
        self.found.append(what)
        print(f"WRONG: {what}", flush=True)

    def expect(self, what: str, got: object, wanted: object) -> None:
        if got != wanted:
            self.add(f"{what}: {got!r} in place of {wanted!r}")


def write_files(folder: Path, files: Mapping[str, Union[str, bytes]]) -> None:
    folder.mkdir(parents=True, exist_ok=True)
    for path, text in files.items():
        place = folder / path
        place.parent.mkdir(parents=True, exist_ok=True)
        place.write_bytes(text if isinstance(text, bytes) else text.encode())


def read_files(folder: Path) -> dict[str, bytes]:
    """All files below a folder, by path."""
    return {str(path.relative_to(folder)): path.read_bytes() for path in sorted(folder.rglob("*")) if path.is_file()}


def run(words: list, folder: Path, **environment: str) -> subprocess.CompletedProcess:
    return subprocess.run(
        [str(word) for word in words], cwd=folder, stdin=subprocess.DEVNULL, capture_output=True, text=True, errors="backslashreplace",
        env={**os.environ, **environment},
    )


def adopt(folder: Path, *words: object, **environment: str) -> subprocess.CompletedProcess:
    """`site adopt FOLDER WORD ..`, called from above the folder."""
    return run([sys.executable, "-B", "-X", "utf8", PARTS / "main.py", PROGRAM, "adopt", *words, "--", folder], folder.parent, **environment)


def expect_said(what: str, done: subprocess.CompletedProcess, failures: Failures, status: int, *parts: str) -> None:
    """The status, and what standard output and standard error have to hold."""
    failures.expect(f"{what}: {done.stdout}{done.stderr}: status", done.returncode, status)
    for part in parts:
        failures.expect(f"{what}: says {part!r}: {done.stdout}{done.stderr}", part in done.stdout + done.stderr, True)


def workers() -> ProcessPoolExecutor:
    """Processes for parts that run side by side, at most one for each of four processors. They end with the process that asks for them."""
    return ProcessPoolExecutor(min(4, os.cpu_count() or 1), initializer=end_with_parent)


def end_with_parent() -> None:
    """Has the system kill this process when the thread ends that has started it: the first one of its parent."""
    ctypes.CDLL(None).prctl(PR_SET_PDEATHSIG, signal.SIGKILL)


def has(command: str) -> bool:
    return shutil.which(command) is not None


def build_by_jekyll(folders: list[Path], environment: dict[str, str]) -> dict[str, str]:
    """Builds sites into FOLDER-jekyll; what Jekyll says of those that it refuses."""
    done = subprocess.run(
        ["ruby", str(Path(__file__).with_name("jekyll_builds.rb"))],
        input="".join(f"{folder}\n" for folder in folders), capture_output=True, text=True, env={**os.environ, **environment},
    )
    if done.returncode:
        raise RuntimeError(done.stderr)
    return dict(line.split("\t", 1) for line in done.stdout.splitlines() if "\t" in line)


def until(condition: Callable[[], bool], seconds: float = 30.0) -> bool:
    """Waits for a condition to hold, so long at most; whether it holds."""
    end = time.monotonic() + seconds
    while not condition():
        if time.monotonic() > end:
            return False
        time.sleep(0.01)
    return True


def is_running(number: int) -> bool:
    """Whether there is a process of this number that has not ended."""
    try:
        state = Path("/proc", str(number), "stat").read_text(errors="replace").rpartition(")")[2].split()[0]
    except OSError:
        return False
    return state not in "ZX"
