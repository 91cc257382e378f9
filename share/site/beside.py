"""The part that makes the styles of a site. A copy of the script without it goes on, and so does one in which it fails."""
from __future__ import annotations

import importlib
import importlib.util
from pathlib import Path

from scanned import entries_of, is_entered, join
from words import shown

STYLES = (".scss", ".sass")


def styles(folder: Path, program: str) -> list[str]:
    """Makes the styles that the site has as Sass; the lines that there are to say of it, as a terminal may have them."""
    if not has_styles(folder) or importlib.util.find_spec("sass") is None:
        return []
    try:
        importlib.import_module("site_files").scratch_outside(folder)
        return [shown(line) for line in importlib.import_module("sass").compile_styles(folder, program)]
    except Exception as error:
        # A file may go while it is read, as when a branch is switched. The next save tries again.
        return [f"the styles were not made anew: {shown(str(error) or type(error).__name__)}"]


def has_styles(folder: Path) -> bool:
    """Whether a file of the site is a style of Sass. No link is followed."""
    left = [""]
    while left:
        below = left.pop()
        try:
            with entries_of(folder, below) as entries:
                for entry in entries:
                    if entry.name.endswith(STYLES):
                        return True
                    if entry.is_dir(follow_symlinks=False) and is_entered(below, entry.name):
                        left.append(join(below, entry.name))
        except OSError:
            # It has gone, or cannot be read, which the program tells.
            pass
    return False
