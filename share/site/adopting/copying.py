"""The copy of a site in which all is done: its files, what its links lead to, and the rights of both."""
from __future__ import annotations

import os
import shutil
import stat
from pathlib import Path
from typing import Optional

from adopting.adoption import Adoption, refuse_too_much
from inside import CREATING, RIGHTS, file_of, folder_of, stays_inside
from site_files import list_files
from words import Refused, shown

# What the copy does not need, besides what the program passes over.
NOT_COPIED = {"_site", "vendor/bundle", "vendor/cache", "vendor/gems", "vendor/ruby"}


def copy_site(adoption: Adoption) -> None:
    """Copies what is a file of the site. No link is followed out of the folder."""
    found = list_files(adoption.original)
    files = [path for path in found.files if not is_left_out(path)]
    targets = {path: target_of(adoption.original, path) for path in found.links}
    refuse_too_much(adoption.original, files + [target for target in targets.values() if target])
    unread = [f"{shown(path)}: {why}" for path, why in found.odd if "cannot be read" in why]
    if unread:
        raise Refused(f"{unread[0]}; give yourself the right to read it, or take it out of the folder. Nothing was done")
    for path, why in found.odd:
        adoption.left(shown(path), f"{why}, so it is no part of the site; rename it, or take it away")
    adoption.folder.mkdir()
    for path in files:
        adoption.copied[path] = copy_file(adoption, path, path)
    for path, target in targets.items():
        adopt_link(adoption, path, target)


def is_left_out(path: str) -> bool:
    return path.startswith(tuple(f"{name}/" for name in NOT_COPIED))


def copy_file(adoption: Adoption, source: str, path: str) -> int:
    """Copies a file of the site, with its rights and the time at which it was saved; that time."""
    with file_of(adoption.original, source) as number, folder_of(adoption.folder, path, make=True) as (folder, name):
        status = os.fstat(number)
        with open(number, "rb", closefd=False) as old, open(os.open(name, CREATING, 0o600, dir_fd=folder), "wb") as new:
            shutil.copyfileobj(old, new)
            os.fchmod(new.fileno(), status.st_mode & RIGHTS)
        os.utime(name, ns=(status.st_atime_ns, status.st_mtime_ns), dir_fd=folder)
        return status.st_mtime_ns


def target_of(folder: Path, path: str) -> Optional[str]:
    """The file of the site to which a link leads; nothing when it leads elsewhere."""
    try:
        inner = str((folder / path).resolve(strict=True).relative_to(folder))
    except (OSError, RuntimeError, ValueError):
        return None
    return inner if (folder / inner).is_file() and stays_inside(folder, inner) and not is_left_out(inner) else None


def adopt_link(adoption: Adoption, path: str, target: Optional[str]) -> None:
    """A link to a file of the site becomes that file; of another it is said that it is passed over."""
    if target is None:
        adoption.left(path, "a link that leads out of the site, to a folder, or nowhere; links are passed over: put the files themselves there")
        return
    copy_file(adoption, target, path)
    adoption.done(path, f"a link to {target} is that file now: links are passed over")


def close_folders(adoption: Adoption) -> None:
    """Gives the folders of the copy the rights that they have in the site, and a new one those of the folder that it is in."""
    for inner, _, _ in os.walk(adoption.folder):
        path = os.path.relpath(inner, adoption.folder)
        old = adoption.original / adoption.old_folders.get(path, path)
        like = old if old.is_dir() and not old.is_symlink() else Path(inner).parent
        owners = stat.S_IRWXU if path == "." else 0
        os.chmod(inner, like.stat().st_mode & RIGHTS | owners)
