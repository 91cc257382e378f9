"""Says whether a path stays in a folder, and opens, reads and writes what is below it: no link is followed on the way."""
from __future__ import annotations

import errno
import os
import secrets
import stat
from contextlib import contextmanager
from pathlib import Path
from typing import Iterator, Optional, Sequence, Union

# What a scan passes over, wherever it is, and at the top: docs/PROFILE.md, "The folder".
PASSED_OVER = {".git", ".svn", ".hg", ".jekyll-cache", ".sass-cache", "node_modules"}
OUTPUT = "_site"
# Opening a pipe to read would otherwise wait for somebody who writes.
READING = os.O_RDONLY | os.O_NOFOLLOW | os.O_NONBLOCK | os.O_CLOEXEC
ENTERING = os.O_RDONLY | os.O_DIRECTORY | os.O_NOFOLLOW | os.O_CLOEXEC
CREATING = os.O_WRONLY | os.O_CREAT | os.O_EXCL | os.O_NOFOLLOW | os.O_CLOEXEC
# Rights to read, write and run; no others are given to a file here.
RIGHTS = stat.S_IRWXU | stat.S_IRWXG | stat.S_IRWXO


class Outside(OSError):
    """A path leads out of its folder."""

    def __init__(self, path: Union[str, bytes]):
        super().__init__(errno.EPERM, "it leads out of the folder", os.fsdecode(path))


def steps_of(path: Union[str, bytes]) -> Optional[list[bytes]]:
    """The names in a path below a folder; nothing when it is absolute, or one of its names leads elsewhere or is none (`..`, `.`, empty)."""
    steps = os.fsencode(path).split(b"/")
    return None if any(step in (b"", b".", b"..") or b"\0" in step for step in steps) else steps


def is_of_site(path: str) -> bool:
    """Whether a path stays in the site's folder, and outside of the output and of what a scan passes over. The disk is not looked at."""
    steps = steps_of(path)
    return steps is not None and steps[0] != os.fsencode(OUTPUT) and not any(os.fsdecode(step) in PASSED_OVER for step in steps)


def stays_inside(top: Path, path: str) -> bool:
    """Whether a file of the site is, or can be, at this path: no link is on the way, and neither a link, a pipe nor a device is there."""
    if not is_of_site(path):
        return False
    try:
        with folder_of(top, path) as (folder, name):
            return stat.S_IFMT(os.lstat(name, dir_fd=folder).st_mode) in (stat.S_IFREG, stat.S_IFDIR)
    except FileNotFoundError:
        return True
    except OSError:
        return False


def open_below(top: Path, steps: Sequence[bytes]) -> int:
    """Opens the file or folder at these names below a folder; the number has to be closed. Raises OSError when a link or nothing is there."""
    number = os.open(top, ENTERING)
    try:
        for step in steps:
            inner = os.open(step, READING, dir_fd=number)
            os.close(number)
            number = inner
        return number
    except BaseException:
        os.close(number)
        raise


@contextmanager
def folder_of(top: Path, path: str, make: bool = False) -> Iterator[tuple[int, bytes]]:
    """The open folder in which a path ends, and its last name. `make` makes the folders that are not there.

    Raises Outside, and OSError when a folder on the way is a link, is none or may not be entered.
    """
    steps = steps_of(path)
    if steps is None:
        raise Outside(path)
    number = os.open(top, ENTERING)
    try:
        for step in steps[:-1]:
            inner = enter(number, step, make)
            os.close(number)
            number = inner
        yield number, steps[-1]
    finally:
        os.close(number)


def enter(folder: int, name: bytes, make: bool) -> int:
    """Opens a folder in an open one."""
    if make:
        try:
            os.mkdir(name, dir_fd=folder)
        except FileExistsError:
            pass
    return os.open(name, ENTERING, dir_fd=folder)


@contextmanager
def file_of(top: Path, path: str) -> Iterator[int]:
    """The number of an open file. Raises OSError when no file is there, or a link is on the way."""
    with folder_of(top, path) as (folder, name):
        number = os.open(name, READING, dir_fd=folder)
    try:
        if not stat.S_ISREG(os.fstat(number).st_mode):
            raise OSError(errno.EINVAL, "it is no file", path)
        yield number
    finally:
        os.close(number)


def read_below(top: Path, path: str, most: Optional[int] = None) -> bytes:
    """The bytes of a file; the first `most` of them when that is given. Raises OSError as `file_of` does."""
    with file_of(top, path) as number, open(number, "rb", closefd=False) as file:
        return file.read(-1 if most is None else most)


def write_below(top: Path, path: str, data: bytes) -> None:
    """Puts bytes in the place of a file, whole or not at all, and makes the folders on the way.

    A file that is there keeps its rights, but for those bits that make who runs it somebody else. Raises OSError when a link is on the way.
    """
    with folder_of(top, path, make=True) as (folder, name):
        spare = os.fsencode(f".site-{secrets.token_hex(8)}")
        number = os.open(spare, CREATING, 0o666, dir_fd=folder)
        try:
            with open(number, "wb") as file:
                rights = rights_of(folder, name)
                if rights is not None:
                    os.fchmod(number, rights)
                file.write(data)
            os.replace(spare, name, src_dir_fd=folder, dst_dir_fd=folder)
        except BaseException:
            os.unlink(spare, dir_fd=folder)
            raise


def create_below(top: Path, path: str, data: bytes) -> None:
    """Makes a new file, and the folders on the way. Raises OSError when something of that name is there, or a link is on the way."""
    with folder_of(top, path, make=True) as (folder, name):
        with open(os.open(name, CREATING, 0o666, dir_fd=folder), "wb") as file:
            file.write(data)


def rights_of(folder: int, name: bytes) -> Optional[int]:
    """The rights of a file in an open folder; nothing when there is no file."""
    try:
        mode = os.lstat(name, dir_fd=folder).st_mode
    except FileNotFoundError:
        return None
    return mode & RIGHTS if stat.S_ISREG(mode) else None


def remove_below(top: Path, path: str) -> None:
    """Removes a file, or a link itself. Raises OSError when it is not there, or a link is on the way."""
    with folder_of(top, path) as (folder, name):
        os.unlink(name, dir_fd=folder)
