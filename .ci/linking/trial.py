"""One session whose replies to `links` are compared with those of the plain checker, over what the program believes to be in the output."""
from __future__ import annotations

import os
import shutil
import time
from pathlib import Path
from typing import Iterator, Optional

import plain
from client import Client, begin
from edits import KEPT, Edits, page_path, PAGES

# No reply takes so many seconds.
PATIENCE = 60.0
# Files of the output that were there before, and are kept: they answer links, and their own are not looked at.
KEPT_FILES = {f"{KEPT}/k.html": b"<a href=nowhere>", f"{KEPT}/index.html": b"<a href=/nowhere>"}
BLOCKER = "in-the-way"


class Differs(Exception):
    """A reply is not what the plain checker says."""


class Trial:
    """A site in a folder, the session that builds it, and what that believes of the output."""

    def __init__(self, program: str, folder: Path, jobs: int, seed: int, until: float):
        """Begins it in an empty folder; it is cut off at a moment of the clock."""
        self.until = until
        self.folder, self.out = folder, folder / "_site"
        self.edits = Edits(seed)
        self.words = f"seed {seed}, {jobs} job{'s' if jobs > 1 else ''}"
        for path, data in KEPT_FILES.items():
            (self.out / path).parent.mkdir(parents=True, exist_ok=True)
            (self.out / path).write_bytes(data)
        self.client = Client(begin(program, folder, "--jobs", str(jobs)), PATIENCE)
        # What the last build that was done has left: the base, and the paths that could not be written or removed.
        self.is_built = False
        self.base = ""
        self.marked: set[str] = set()
        self.scanned: dict[str, bytes] = {}
        # The place of a page in which a folder stands, so that no page can be written there.
        self.blocked: Optional[str] = None
        # The pages that stood at such places, with their bytes: until a build tries to write there, the program knows nothing of it.
        self.taken: dict[str, bytes] = {}
        # What has come so far: lines `links`, faults, builds that failed to write, links that led nowhere, and the most in one reply.
        self.lines = self.faults = self.failed = self.found = self.most = 0

    def close(self) -> None:
        self.client.close()

    def play(self, count: int) -> None:
        """So many lines `links`, with edits and builds between them. Raises Differs."""
        for line in self.edits.begin():
            self.client.done(line)
        if self.edits.random.random() < 0.5:
            self.compare()
        while self.lines < count:
            if time.monotonic() > self.until:
                raise Differs(f"{self.words}: cut off after {self.lines} lines, since it takes too long")
            self.edit()
            chance = self.edits.random.random
            if chance() < (0.3 if self.blocked else 0.02):
                self.block()
                # Of a build that cannot write all, the base counts too.
                if self.blocked and chance() < 0.5:
                    self.put_settings()
            if chance() < 0.95:
                self.build()
            self.compare()
            if chance() < 0.05:
                self.compare()

    def told(self) -> str:
        return f"{self.lines:,} lines, {self.found:,} broken links ({self.most:,} at the most), {self.faults} faults, {self.failed} builds that could not write"

    def edit(self) -> None:
        for line in self.edits.next():
            self.client.done(line)

    def put_settings(self) -> None:
        for line in self.edits.settings():
            self.client.done(line)

    def block(self) -> None:
        """Puts a folder in the place of a page, or takes it away."""
        if self.blocked:
            shutil.rmtree(self.out / self.blocked)
            self.blocked = None
            return
        path = page_path(5 * self.edits.random.randrange(PAGES // 5))
        if path not in self.edits.files:
            return
        if (self.out / path).is_file():
            if path not in self.marked:
                self.taken[path] = (self.out / path).read_bytes()
            (self.out / path).unlink()
        (self.out / path / BLOCKER).mkdir(parents=True, exist_ok=True)
        (self.out / path / BLOCKER / BLOCKER).touch()
        self.blocked = path
        self.client.done(self.edits.put(path, self.edits.text()))

    def build(self) -> None:
        replies = self.client.ask_all(b"build\n")
        if replies[0].startswith("fault "):
            self.faults += 1
            return
        self.marked = {reply[len("marked ") :] for reply in replies[1:]}
        self.failed += bool(self.marked)
        self.taken = {path: data for path, data in self.taken.items() if path in self.edits.files and path not in self.marked and not (self.out / path).is_file()}
        self.is_built = True
        self.base = plain.base_of(self.edits.baseurl)

    def believed(self) -> tuple[dict[str, bytes], frozenset[str]]:
        """The files that the program has written, and all paths that it believes to be there."""
        if not self.is_built:
            return {}, frozenset()
        known, there = dict(self.taken), self.marked | set(self.taken)
        for path, place in files_below(str(self.out)):
            if BLOCKER in path:
                continue
            there.add(path)
            if path not in self.marked and path not in KEPT_FILES:
                with open(place, "rb") as file:
                    known[path] = file.read()
        return known, frozenset(there)

    def compare(self) -> None:
        known, there = self.believed()
        pages = {path: data for path, data in known.items() if path.endswith(plain.PAGE)}
        wanted = plain.reply(pages, there, self.base, sum(self.scanned.get(path) != data for path, data in pages.items()))
        self.scanned = pages
        self.lines += 1
        came = self.client.ask_all(b"links\n")
        self.found += len(came) - 1
        self.most = max(self.most, len(came) - 1)
        if came != wanted:
            raise Differs(f"{self.words}, line {self.lines}: {difference(wanted, came, pages)}")


def files_below(folder: str, front: str = "") -> Iterator[tuple[str, str]]:
    """Each file below a folder: its path there, and its place."""
    with os.scandir(folder) as entries:
        for entry in entries:
            if entry.is_dir():
                yield from files_below(entry.path, f"{front}{entry.name}/")
            else:
                yield front + entry.name, entry.path


def difference(wanted: list[str], came: list[str], pages: dict[str, bytes]) -> str:
    """The first place where two replies differ, with the page that it is about."""
    at = next((place for place, (one, other) in enumerate(zip(wanted, came)) if one != other and place), min(len(wanted), len(came)))
    lines = [(reply + [""] * (at + 1))[at] for reply in (wanted, came)]
    page = next((path for path in sorted(pages) for line in lines if line.startswith(f"broken {path} ")), "")
    said = f"wanted {wanted[0]!r} and there {lines[0]!r}\n    came   {came[0]!r} and there {lines[1]!r}"
    return f"{said}\n    {page}: {pages[page]!r}" if page else said
