"""What is wrong with a site, as a person or a page in the browser is told."""
from __future__ import annotations

import fcntl
import os
import re
from dataclasses import dataclass
from pathlib import Path
from typing import Optional

from calling import NotDone, call
from inside import OUTPUT, open_below
from session import Failed, LeftToScan, read_source
from words import shown

# What `check` says: this, perhaps a file and its line, the sentence, and its code (docs/FAULTS.md).
FRONT = "sitebuild: "
SENTENCE = re.compile(r"(?P<sentence>[^\n]*) \((?P<code>[A-Za-z]+ ?\d+)[^()]*\)$")
LINE = re.compile(r"(\d+): ")
MOST_MARKED = 20


@dataclass(frozen=True)
class Fault:
    sentence: str
    code: str = ""
    file: str = ""
    line: int = 0
    # The line's own text.
    text: str = ""

    def told(self) -> str:
        """As one line for a terminal, in the form that editors make a link of."""
        place = f"{shown(self.file)}:{self.line}: " if self.line else f"{shown(self.file)}: " if self.file else ""
        code = f" ({self.code})" if self.code else ""
        return f"{place}{shown(self.sentence)}{code}"


ANOTHER_RUN = Fault(
    "another run is using this site, perhaps a `site serve` or `site watch` in another window; this one builds when that has ended", "status 4"
)


def is_in_use(folder: Path) -> bool:
    """Whether a run of the program holds `_site`: docs/PROFILE.md, "One run at a time"."""
    try:
        number = open_below(folder, [os.fsencode(OUTPUT)])
    except OSError:
        return False
    try:
        # A run takes it for itself alone.
        fcntl.flock(number, fcntl.LOCK_SH | fcntl.LOCK_NB)
        return False
    except BlockingIOError:
        return True
    except OSError:
        # This file system has no locks.
        return False
    finally:
        os.close(number)


def explain(program: str, folder: Path, options: list[str], failed: Failed) -> Fault:
    """What a reply means. The replies of a session have no sentences, so `check` is asked for them."""
    if failed.reply.startswith("out-fault"):
        return ANOTHER_RUN if not failed.marked and is_in_use(folder) else output_fault(failed)
    options = [word for word in options if word in ("--drafts", "--future")]
    try:
        said = call([program, "check", *options], folder).stderr.decode(errors="replace").strip()
    except NotDone:
        said = ""
    # `fault KIND LINE PATH`, or `scan-fault`
    parts = failed.reply.split(" ", 3)
    path = parts[3] if len(parts) == 4 else ""
    told = read_sentence(said, path)
    if told is None:
        # The folder has changed since, and is built again in a moment.
        return Fault("a fault was found; docs/FAULTS.md of sitebuild says what its code means", parts[1] if path else failed.reply, path)
    sentence, code, line = told
    return Fault(sentence, code, path, line, text_of(folder, path, line))


def read_sentence(said: str, path: str) -> Optional[tuple[str, str, int]]:
    """The sentence, the code and the line of what `check` says of a file, or of the folder if the path is empty."""
    if not said.startswith(FRONT):
        return None
    rest, line = said[len(FRONT) :], 0
    if path:
        # The program shows signs that could steer a terminal in another way.
        if shown(rest[: len(path)]) != shown(path) or rest[len(path) : len(path) + 1] != ":":
            return None
        rest = rest[len(path) + 1 :]
        number = LINE.match(rest)
        if number:
            line, rest = int(number[1]), rest[number.end() :]
    told = SENTENCE.match(rest.lstrip())
    return (told["sentence"], told["code"], line) if told else None


def text_of(folder: Path, path: str, line: int) -> str:
    """The text of a line of a file of the site."""
    if not line:
        return ""
    try:
        data = read_source(folder, path) or b""
    except LeftToScan:
        return ""
    lines = re.split(rb"\r\n|\n|\r", data)
    return lines[line - 1].decode(errors="replace") if line <= len(lines) else ""


def fault_of_line(folder: Path, line: str) -> Optional[Fault]:
    """The fault that a line `FILE:LINE: SENTENCE` or `FILE: SENTENCE` tells; nothing for any other line."""
    place, found, sentence = line.partition(": ")
    file, _, number = place.rpartition(":")
    if not file or not number.isdecimal():
        file, number = place, "0"
    return Fault(sentence, "", file, int(number), text_of(folder, file, int(number))) if found else None


def output_fault(failed: Failed) -> Fault:
    if not failed.marked:
        return Fault("_site cannot be listed, and nothing was written; check that it is a folder, and check its names and permissions", "status 4")
    paths = ", ".join(os.path.join("_site", path) for path in failed.marked[:MOST_MARKED])
    more = f" and {len(failed.marked) - MOST_MARKED} more" if len(failed.marked) > MOST_MARKED else ""
    return Fault(f"these files could not be written or removed, and are tried again with the next save: {paths}{more}", "status 4")
