"""The checks of `site adopt` and of the lines that `site check` says of a Jekyll site. usage: main.py [PART ..], with the program in SITEBUILD"""
from __future__ import annotations

import contextlib
import importlib
import io
import os
import shutil
import sys
import tempfile
import time
import traceback
from pathlib import Path

from common import Failures, workers

# By the module of a part, what it has found when nothing is wrong. The first ones take longest.
SIDE_BY_SIDE = {
    "hostile": "bad sites and bad moments: each told in words, and nothing lost",
    "sheets": "Sass: it reads and writes the site's own files alone, and ends",
    "rights": "what is copied: with no more rights than there were, through no link of gems, and with an end",
    "beside_jekyll": "",
    "held_back": "what Jekyll holds back: it stays back in all spellings, and nothing is made where a rule is wrong",
    "dates": "dates in named zones: Jekyll's addresses and clocks, as zoneinfo has them",
    "patterns": "patterns: they find what Ruby finds, in time",
    "plugins": "",
    "proof": "",
    "calls": "calls of other programs: within their limits, and ended with their caller",
    "paths": "paths that lead out of a folder: nothing is read or written there",
}
# These have processes of their own, one for each processor.
ALONE = {"random_sites": "", "odd_settings": "odd settings: each is adopted, or refused in words"}
MEMORY = "/dev/shm"
ROOM = 1 << 30


def in_memory() -> None:
    """Has all folders made in memory where there is room: thousands of small ones are made and removed."""
    if os.access(MEMORY, os.W_OK) and shutil.disk_usage(MEMORY).free > ROOM:
        os.environ["TMPDIR"] = tempfile.tempdir = MEMORY


def try_part(name: str, sentence: str, work: Path) -> tuple[str, list[str]]:
    """Tries a part in a folder of its own; what it says, and what it found wrong."""
    failures = Failures()
    begun = time.monotonic()
    with contextlib.redirect_stdout(io.StringIO()) as said:
        try:
            (work / name).mkdir()
            importlib.import_module(name).try_all(work / name, failures)
        except Exception:
            failures.add(f"{name} ended: {traceback.format_exc()}")
        if sentence and not failures.found:
            print(sentence)
    return f"{said.getvalue()}{name}: {time.monotonic() - begun:.0f} s\n", failures.found


def main(chosen: list[str]) -> int:
    in_memory()
    wrong: list[str] = []
    with tempfile.TemporaryDirectory() as folder:
        work = Path(folder)
        work.chmod(0o755)
        for part, sentence in ALONE.items():
            if not chosen or part in chosen:
                said, found = try_part(part, sentence, work)
                print(said, end="", flush=True)
                wrong += found
        parts = {part: sentence for part, sentence in SIDE_BY_SIDE.items() if not chosen or part in chosen}
        with workers() as pool:
            for said, found in pool.map(try_part, parts, parts.values(), [work] * len(parts)):
                print(said, end="", flush=True)
                wrong += found
    if wrong:
        print(f"{len(wrong)} wrong")
    return 1 if wrong else 0


if __name__ == "__main__":
    sys.exit(main(sys.argv[1:]))
