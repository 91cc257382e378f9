"""A site that is made ready, and what there is to say of it."""
from __future__ import annotations

import os
from dataclasses import dataclass, field
from pathlib import Path
from typing import Optional

from adopting.zones import Zone
from site_files import list_files
from words import Refused, shown

# The limits of a site: docs/PROFILE.md.
MOST_FILES = 50_000
MOST_BYTES = 536_870_912

@dataclass
class Adoption:
    """The copy in which all is done, and the lines that the user reads."""

    folder: Path
    program: str
    # The site's own folder: gems are looked for there, and `keep_files` names files of its output.
    original: Path
    # The files that were copied, and when each was saved last.
    copied: dict[str, int] = field(default_factory=dict)
    # The old paths of folders that have another name now.
    old_folders: dict[str, str] = field(default_factory=dict)
    # The files of the site that Jekyll leaves out.
    left_out: set[str] = field(default_factory=set)
    # The zone that the configuration named.
    zone: Optional[Zone] = None
    done_lines: list[str] = field(default_factory=list)
    left_lines: list[str] = field(default_factory=list)

    def done(self, place: str, what: str) -> None:
        self.done_lines.append(f"{place}: {what}")

    def left(self, place: str, what: str) -> None:
        self.left_lines.append(f"{place}: {what}")

    def files(self) -> list[str]:
        return list_files(self.folder).files


def refuse_too_much(folder: Path, files: list[str]) -> None:
    """What the program would refuse is not copied. A file to which several links lead counts for each."""
    if len(files) > MOST_FILES:
        raise Refused(f"{shown(str(folder))}: has more than {MOST_FILES:,} files, so it is no site; name the folder of the site")
    if sum(os.lstat(folder / path).st_size for path in files) > MOST_BYTES:
        raise Refused(f"{shown(str(folder))}: all files together are longer than 512 MiB; take long files out of the site first")
