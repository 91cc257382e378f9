"""What comes and changes directly in a folder, as the system tells it (inotify)."""
from __future__ import annotations

import ctypes
import os
import select
import struct
from pathlib import Path

IN_MODIFY, IN_MOVED_TO, IN_CREATE = 0x2, 0x80, 0x100
HEAD = struct.Struct("iIII")


class Watch:
    """Looks at a folder as long as it lasts."""

    def __init__(self, folder: Path, kinds: int) -> None:
        libc = ctypes.CDLL(None, use_errno=True)
        self.descriptor = libc.inotify_init1(os.O_NONBLOCK)
        libc.inotify_add_watch(self.descriptor, os.fsencode(folder), kinds)

    def __enter__(self) -> Watch:
        return self

    def __exit__(self, *_: object) -> None:
        os.close(self.descriptor)

    def wait(self, seconds: float) -> bool:
        """Whether something comes within these seconds."""
        return bool(select.select([self.descriptor], [], [], seconds)[0])

    def names(self) -> set[str]:
        """The names that have come or changed so far."""
        try:
            events = os.read(self.descriptor, 1 << 20)
        except BlockingIOError:
            return set()
        at, names = 0, set()
        while at < len(events):
            length = HEAD.unpack_from(events, at)[3]
            at += HEAD.size
            names.add(os.fsdecode(events[at:at + length].rstrip(b"\0")))
            at += length
        return names
