"""Notices which files of a folder were saved: by inotify or, if there is none, by looking five times a second."""
from __future__ import annotations

import ctypes
import errno
import os
import select
import stat
import struct
import time
from dataclasses import dataclass, field
from pathlib import Path
from typing import Optional, Protocol, Tuple, Union

from inside import OUTPUT
from scanned import entries_of, is_entered, join

# Seconds between two looks.
BETWEEN_LOOKS = 0.2

# What tells a file from its earlier states; nothing for a file that has gone meanwhile.
State = Tuple[int, ...]


class Readable(Protocol):
    """What can be waited for until it can be read."""

    def fileno(self) -> int: ...


class NotToBeHad(Exception):
    """inotify does not serve here; says why."""


@dataclass
class Changes:
    """What was noticed."""

    # Files that were saved, or have gone, by their paths from the top.
    paths: set[str] = field(default_factory=set)
    # Whether something has happened that these paths do not tell.
    unclear: bool = False
    # Whether something has happened to the folder `_site` itself.
    output: bool = False

    def __bool__(self) -> bool:
        return bool(self.paths) or self.unclear or self.output

    def add(self, later: Changes) -> None:
        self.paths |= later.paths
        self.unclear |= later.unclear
        self.output |= later.output


def mark(folder: str | Path, name: str = "") -> Optional[tuple[int, int]]:
    """Which file or folder has this name, to tell it from another of that name."""
    try:
        status = os.lstat(os.path.join(folder, name))
    except OSError:
        return None
    return status.st_dev, status.st_ino


# ---- inotify: the numbers of <sys/inotify.h>

IN_ATTRIB = 0x4
IN_CLOSE_WRITE = 0x8
IN_MOVED_FROM = 0x40
IN_MOVED_TO = 0x80
IN_CREATE = 0x100
IN_DELETE = 0x200
IN_Q_OVERFLOW = 0x4000
IN_IGNORED = 0x8000
IN_ONLYDIR = 0x1000000
IN_DONT_FOLLOW = 0x2000000
IN_ISDIR = 0x40000000
NOTICED = IN_ATTRIB | IN_CLOSE_WRITE | IN_MOVED_FROM | IN_MOVED_TO | IN_CREATE | IN_DELETE | IN_ONLYDIR | IN_DONT_FOLLOW
EVENT = struct.Struct("iIII")
BUFFER = 1 << 16
MOST_READS = 16


class Inotify:
    """A watch on each folder of a tree. What happens after it was made is noticed."""

    says = ""

    def __init__(self, top: Path):
        self.top = os.fspath(top)
        self.number = -1
        try:
            self.library = ctypes.CDLL(None, use_errno=True)
            self.number = self.library.inotify_init1(os.O_NONBLOCK | os.O_CLOEXEC)
        except (OSError, AttributeError) as error:
            raise NotToBeHad("this system has no inotify") from error
        if self.number < 0:
            raise NotToBeHad(f"inotify cannot be had ({os.strerror(ctypes.get_errno())})")
        self.folders: dict[int, str] = {}
        try:
            self.enter("")
        except NotToBeHad:
            self.close()
            raise

    def close(self) -> None:
        os.close(self.number)

    def wait(self, seconds: float, *others: Readable) -> bool:
        """Waits until something can be taken, at most so long, and no longer than until another can be read."""
        ready, _, _ = select.select([self.number, *others], [], [], max(seconds, 0))
        return self.number in ready

    def enter(self, folder: str) -> set[str]:
        """Watches a folder and all below it; the files that are there."""
        files, left = set(), [folder]
        while left:
            folder = left.pop()
            if not self.watch(folder):
                continue
            try:
                with entries_of(self.top, folder) as entries:
                    for entry in entries:
                        if not entry.is_dir(follow_symlinks=False):
                            files.add(join(folder, entry.name))
                        elif is_entered(folder, entry.name):
                            left.append(join(folder, entry.name))
            except OSError:
                # It has gone, which is noticed too, or it cannot be read, which a scan tells.
                pass
        return files

    def watch(self, folder: str) -> bool:
        path = os.fsencode(os.path.join(self.top, folder))
        number = self.library.inotify_add_watch(self.number, path, NOTICED)
        if number >= 0:
            self.folders[number] = folder
            return True
        reason = ctypes.get_errno()
        if reason in (errno.ENOSPC, errno.ENOMEM):
            raise NotToBeHad("inotify has no watches left (fs.inotify.max_user_watches)")
        return False

    def leave(self, folder: str) -> None:
        """Watches a folder and all below it no longer."""
        for number, other in list(self.folders.items()):
            if other == folder or other.startswith(folder + "/"):
                del self.folders[number]
                self.library.inotify_rm_watch(self.number, number)

    def take(self) -> Changes:
        """What has happened so far."""
        changes = Changes()
        # So many times at most: while files are saved without a pause, there is always more.
        for _ in range(MOST_READS):
            try:
                data = os.read(self.number, BUFFER)
            except BlockingIOError:
                break
            at = 0
            while at < len(data):
                number, mask, _, length = EVENT.unpack_from(data, at)
                at += EVENT.size
                name = os.fsdecode(data[at : at + length].rstrip(b"\0"))
                at += length
                self.note(changes, number, mask, name)
        return changes

    def note(self, changes: Changes, number: int, mask: int, name: str) -> None:
        """Adds what one event tells."""
        if mask & IN_IGNORED:
            self.folders.pop(number, None)
        elif mask & IN_Q_OVERFLOW:
            changes.unclear = True
            self.enter("")
        elif number not in self.folders:
            changes.unclear = True
        elif not name:
            # A folder itself: of all but the top, the one above it tells too.
            pass
        elif join(self.folders[number], name) == OUTPUT:
            changes.output = True
        elif mask & IN_ISDIR:
            self.note_folder(changes, self.folders[number], mask, name)
        elif mask & ~IN_CREATE or self.is_whole(join(self.folders[number], name)):
            changes.paths.add(join(self.folders[number], name))

    def note_folder(self, changes: Changes, folder: str, mask: int, name: str) -> None:
        if not is_entered(folder, name):
            return
        path = join(folder, name)
        if mask & (IN_DELETE | IN_MOVED_FROM):
            self.leave(path)
        else:
            changes.paths |= self.enter(path)
        # A new folder is told by the files in it. What moved, went, or changed its rights is not.
        changes.unclear |= not mask & IN_CREATE

    def is_whole(self, path: str) -> bool:
        """Whether a new name is that of a file that is there already: a hard link. Any other is noticed when it is closed."""
        try:
            status = os.lstat(os.path.join(self.top, path))
        except OSError:
            return False
        return stat.S_ISREG(status.st_mode) and status.st_nlink > 1


class Looking:
    """Looks at the times and sizes of all files, again and again."""

    def __init__(self, top: Path, why: str):
        self.top = os.fspath(top)
        self.says = f"{why}; looking for saves five times a second"
        self.found = Changes()
        self.seen = self.look()
        self.output = mark(self.top, OUTPUT)

    def close(self) -> None:
        pass

    def wait(self, seconds: float, *others: Readable) -> bool:
        until = time.monotonic() + seconds
        while True:
            self.compare()
            left = until - time.monotonic()
            if self.found or left <= 0:
                return bool(self.found)
            ready, _, _ = select.select(others, [], [], min(left, BETWEEN_LOOKS))
            if ready:
                return False

    def take(self) -> Changes:
        found, self.found = self.found, Changes()
        return found

    def compare(self) -> None:
        """Adds what is not as it was at the last look."""
        now, output = self.look(), mark(self.top, OUTPUT)
        changed = {path for path in now.keys() | self.seen.keys() if now.get(path) != self.seen.get(path)}
        closed = {path for path in changed if None in (now.get(path, 0), self.seen.get(path, 0))}
        self.found.add(Changes(changed - closed, bool(closed), output != self.output))
        self.seen, self.output = now, output

    def look(self) -> dict[str, Optional[State]]:
        """The state of each file; none for a folder that cannot be read."""
        seen: dict[str, Optional[State]] = {}
        left = [""]
        while left:
            folder = left.pop()
            try:
                with entries_of(self.top, folder) as entries:
                    for entry in entries:
                        path = join(folder, entry.name)
                        if entry.is_dir(follow_symlinks=False):
                            if is_entered(folder, entry.name):
                                left.append(path)
                        elif entry.is_file(follow_symlinks=False):
                            seen[path] = state(entry)
            except OSError:
                seen[folder] = None
        return seen


def state(entry: os.DirEntry[str]) -> State:
    """What tells a file from its earlier states."""
    try:
        status = entry.stat(follow_symlinks=False)
    except OSError:
        return ()
    return status.st_mtime_ns, status.st_ctime_ns, status.st_size, status.st_ino


Watch = Union[Inotify, Looking]


def watch(top: Path, poll: bool = False) -> Watch:
    """What notices saves in this folder."""
    if poll:
        return Looking(top, "as you wish")
    try:
        return Inotify(top)
    except NotToBeHad as why:
        return Looking(top, str(why))
