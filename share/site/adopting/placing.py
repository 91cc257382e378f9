"""Puts what came of a site in its place: the copy beside it, or what differs into its own folder."""
from __future__ import annotations

import filecmp
import os
import stat
from pathlib import Path
from typing import Optional

from adopting.adoption import Adoption
from adopting.copying import close_folders, is_left_out
from configuration import CONFIG
from inside import RIGHTS, folder_of, read_below, remove_below, write_below
from site_files import list_files
from words import Refused, shown


def finish(adoption: Adoption, beside: Optional[Path]) -> int:
    """Puts the copy in its place, or what differs into the folder, and says what there is to say."""
    folder = adoption.original
    changed = not_the_same(adoption.folder, folder)
    for line in adoption.done_lines:
        print(f"done: {shown(line)}")
    for line in adoption.left_lines:
        print(f"left: {shown(line)}")
    counts = f"{len(adoption.done_lines)} done, {len(adoption.left_lines)} left"
    if not changed:
        print(f"{shown(str(folder))}: there is nothing to adopt ({counts})")
    elif beside is None:
        write_into(adoption, changed)
        print(f"{shown(str(folder))}: adopted in place ({counts})")
    elif not os.path.lexists(beside):
        close_folders(adoption)
        os.rename(adoption.folder, beside)
        # A folder that nobody may write into could not have been moved.
        os.chmod(beside, folder.stat().st_mode & RIGHTS)
        print(f"{shown(str(beside))}: the site, adopted ({counts})")
    elif not not_the_same(adoption.folder, beside):
        print(f"{shown(str(beside))}: is there already, and nothing has changed since ({counts})")
    else:
        raise Refused(
            f"{shown(str(beside))}: is there already, and {shown(not_the_same(adoption.folder, beside)[0])} in it is another; nothing was written. "
            f"Go on there with `site adopt --write`, or take it away to begin anew"
        )
    return 0


def not_the_same(new: Path, old: Path) -> list[str]:
    """The paths of the files that are not the same in both folders."""
    here, there = set(list_files(new).files), {path for path in list_files(old).files if not is_left_out(path)}
    both = here & there
    changed = (here ^ there) | {path for path in both if not filecmp.cmp(new / path, old / path, shallow=False)}
    return sorted(changed)


def write_into(adoption: Adoption, changed: list[str]) -> None:
    """Writes what differs into the site's own folder, each file whole or not at all. Nothing is written when one of them must not be."""
    new, folder = adoption.folder, adoption.original
    changed = [path for path in changed if path in adoption.copied or (new / path).exists()]
    for path in changed:
        saved = when_saved(folder, path)
        if path in adoption.copied:
            if saved != adoption.copied[path]:
                raise Refused(f"{shown(path)}: it was saved meanwhile; run this again. Nothing was written")
        elif saved is not None:
            raise Refused(f"{shown(path)}: it came meanwhile; run this again. Nothing was written")
    for path in sorted(changed, key=lambda path: (stage(adoption, path), path)):
        if (new / path).exists():
            write_below(folder, path, read_below(new, path))
        else:
            remove_below(folder, path)


def when_saved(folder: Path, path: str) -> Optional[int]:
    """When a file was saved last; nothing when none is there, or a link is, in whose place a file may come."""
    try:
        with folder_of(folder, path) as (inner, name):
            status = os.lstat(name, dir_fd=inner)
    except FileNotFoundError:
        return None
    except OSError as error:
        raise Refused(f"{shown(path)}: a link leads out of the folder there; put the files themselves there. Nothing was written") from error
    return None if stat.S_ISLNK(status.st_mode) else status.st_mtime_ns


def stage(adoption: Adoption, path: str) -> int:
    """When a path is written, so that the next run makes good what is missing after a run that was cut short.

    The configuration says what is still to be done of new files. What is to be done in templates, they say themselves.
    """
    if path == CONFIG:
        return 2
    if path not in adoption.copied:
        return 0
    if (adoption.folder / path).exists():
        return 3
    # It has another name now, under which it was just written.
    return 4 if path == "_config.yaml" else 1
