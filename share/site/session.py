"""A `sitebuild session` over the folder of a site: it is scanned and built, and ends with the process that has started it."""
from __future__ import annotations

import errno
import os
import re
import select
import subprocess
import time
from dataclasses import dataclass, field
from pathlib import Path
from typing import Callable, Optional, Union

from calling import release, start, tell
from client import PATIENCE, Client, Ended, begin
from inside import OUTPUT, read_below
from words import shown

# The limits of a line: docs/PROFILE.md, "The lines of a session".
MOST_BYTES = 16_777_216
MOST_PATH = 1024
# A build that takes longer is not waited for when something was saved since: a template can go on for years.
SLOW = 60.0
BETWEEN_LOOKS = 1.0
# As calling.GUARD, but the program has time to end by itself: a kill could leave half a page.
LATE_GUARD = f'read -r group && ! read -r _ && sleep {PATIENCE:g} && kill -KILL "-$group"'


class LeftToScan(Exception):
    """A line cannot take this file: only a scan can tell what is wrong with it."""


@dataclass(frozen=True)
class Built:
    """A build that was done."""

    rendered: int
    reused: int
    written: int
    removed: int
    whys: list[tuple[str, str]]


@dataclass(frozen=True)
class Failed:
    """A scan or a build that was not done: the reply, and the paths of `_site` that could not be written or removed."""

    reply: str
    marked: list[str] = field(default_factory=list)


@dataclass(frozen=True)
class Broken:
    """A link of a built page that leads nowhere: the page's path in `_site`, and the value with `?` for each control character."""

    path: str
    value: str


class KnowsNoLinks(Ended):
    """The program is one from before it looked for links, and has ended."""


class Session(Client):
    """A session that is kept up while somebody writes. Its standard input is closed when this process ends in any way, and then it ends too, or is ended."""

    def __init__(self, program: str, folder: Path, options: list[str], seconds: Optional[float] = None):
        """Starts it. Raises Ended when it cannot be started, and later when a reply takes more than so many seconds, if that is given."""
        self.folder = folder
        # Is asked when a reply takes longer than SLOW: whether it is of no more use.
        self.is_overtaken: Callable[[], bool] = lambda: False
        self.scanned = False
        try:
            self.guard = start(["bash", "-p", "-c", LATE_GUARD], Path("/"), subprocess.DEVNULL)
        except OSError as error:
            raise not_started(program, error) from error
        try:
            # In a group of its own: otherwise Ctrl-C in a terminal would end it in the middle of a page.
            process = begin(program, folder, "--why", *options, stderr=subprocess.PIPE, own_group=True)
        except OSError as error:
            release(self.guard)
            raise not_started(program, error) from error
        super().__init__(process, seconds)
        tell(self.guard, b"%d\n" % process.pid)

    def has_ended(self) -> bool:
        """Whether the program has ended, or has said something that it was not asked: either way it is of no more use."""
        return bool(self.heard) or bool(select.select([self], [], [], 0)[0])

    def scan(self) -> Optional[Failed]:
        """Reads the whole folder. Returns nothing if that is done."""
        reply = self.ask(b"scan\n")
        self.scanned = reply.startswith("scanned ")
        return None if self.scanned else Failed(reply)

    def build(self, moment: int) -> Union[Built, Failed]:
        """Makes `_site` equal to what the files say. A session without files would empty it, so a scan has to be done first."""
        if not self.scanned:
            raise RuntimeError("a build is asked for before a scan was done")
        self.done(b"time %d\n" % moment)
        *whys, last = replies = self.ask_all(b"build\n")
        if last.startswith("built "):
            rendered, reused, written, removed = (int(part.split("=")[1]) for part in last.split()[1:5])
            return Built(rendered, reused, written, removed, [split_why(reply, self.folder) for reply in whys])
        at = next(at for at, reply in enumerate(replies) if not reply.startswith("why "))
        return Failed(replies[at], [reply[len("marked ") :] for reply in replies[at + 1 :]])

    def links(self) -> list[Broken]:
        """The broken links of what the last build made, by their pages and then as they stand there; none before the first build.

        Raises KnowsNoLinks if the program is too old for the line, and Ended if it replies anything else than that many links.
        """
        head = self.ask(b"links\n")
        if UNKNOWN_LINE.fullmatch(head):
            raise KnowsNoLinks("the program is older than this script, and looks for no links")
        counts = LINKS.fullmatch(head)
        if not counts:
            raise self.not_understood(head)
        # One after another, since there may be a million, and each page's path is kept once.
        paths: dict[str, str] = {}
        found = []
        for _ in range(int(counts[1])):
            one = self.hear_broken()
            found.append(Broken(paths.setdefault(one.path, one.path), one.value))
        return found

    def hear_broken(self) -> Broken:
        reply = self.hear()
        one = split_broken(reply, self.folder)
        if one is None:
            raise self.not_understood(reply)
        return one

    def not_understood(self, reply: str) -> Ended:
        """What a reply is that has another form than it has to have."""
        return Ended(self.how_it_ended() if reply.startswith("script ") else f"the program replied {shown(reply)}")

    def wait(self) -> None:
        begun = time.monotonic()
        while not self.heard:
            if select.select([self], [], [], BETWEEN_LOOKS)[0]:
                self.take()
            else:
                self.lose_patience(time.monotonic() - begun)

    def lose_patience(self, seconds: float) -> None:
        """Raises Ended when a reply that has taken so many seconds is not waited for any longer."""
        if self.seconds is not None and seconds > self.seconds:
            raise self.too_late()
        if seconds > SLOW and self.is_overtaken():
            raise Ended(f"something was saved, and the build before has taken {seconds:.0f} seconds and is not done")

    def close(self) -> None:
        super().close()
        release(self.guard)


def not_started(program: str, error: OSError) -> Ended:
    return Ended(f"the program cannot be started ({error.strerror}): {shown(program)}")


def split_why(reply: str, folder: Path) -> tuple[str, str]:
    """The path and the key of a reply `why PATH KEY`. A path may hold spaces, and words that a key begins with: the longest that is a file is meant."""
    words = reply[len("why ") :].split(" ")
    places = [at for at in range(1, len(words)) if words[at] in KEYS and (words[at] not in ALONE or at == len(words) - 1)]
    if len(places) > 1:
        files = [at for at in places if os.path.lexists(folder / PAGE.sub("", " ".join(words[:at])))]
        places = files[-1:] or places
    return (" ".join(words[: places[0]]), " ".join(words[places[0] :])) if places else (" ".join(words), "")


# The first words of keys: docs/PROFILE.md, "Why an item is rendered".
KEYS = {"new", "source", "content", "output", "var", "paginator", "site", "data", "layout", "include", "file", "link", "post", "moment"}
# Those that nothing follows.
ALONE = {"new", "moment"}
# The number of a page that is generated: by pagination, or as an archive, a feed or a sitemap, for which no file stands.
PAGE = re.compile(r"#\d+$")


# The first line of the reply to `links`, and what a program says of a line that it does not know.
LINKS = re.compile(r"links (0|[1-9][0-9]{0,17}) scanned=(?:0|[1-9][0-9]{0,17})")
UNKNOWN_LINE = re.compile(r"script [1-9][0-9]* 3")
# A path, a space and the first character of a value: the program tells links of such files alone.
PAGE_END = re.compile(r"\.html(?= .)")


def split_broken(reply: str, folder: Path) -> Optional[Broken]:
    """What a line `broken PATH VALUE` tells; nothing where it has another form. Both may hold spaces: of several paths the first is meant that is there."""
    if not reply.startswith("broken "):
        return None
    rest = reply[len("broken ") :]
    # No path is longer, however long a value is.
    ends = [match.end() for match in PAGE_END.finditer(rest, 0, MOST_PATH + 2)]
    if len(ends) > 1:
        ends = [end for end in ends if os.path.lexists(folder / OUTPUT / rest[:end])] or ends
    return Broken(rest[: ends[0]], rest[ends[0] + 1 :]) if ends else None


# What it means that a file cannot be opened: it has gone, or there or on the way is a link, a pipe, a socket or a device.
NO_FILE = {errno.ENOENT, errno.ENOTDIR, errno.ELOOP, errno.ENXIO, errno.ENODEV, errno.EINVAL}


def can_be_told(path: str) -> bool:
    """Whether a line can name this path."""
    try:
        data = path.encode()
    except UnicodeEncodeError:
        return False
    return len(data) <= MOST_PATH and all(byte >= 32 and byte != 127 for byte in data)


def read_source(folder: Path, path: str) -> Optional[bytes]:
    """The bytes of a file of the site; nothing if a scan would find no file there. Follows no link, and never waits.

    Raises LeftToScan for a file that cannot be read, or is too long for a line.
    """
    try:
        data = read_below(folder, path, MOST_BYTES + 1)
    except OSError as error:
        if error.errno in NO_FILE:
            return None
        raise LeftToScan from error
    if len(data) > MOST_BYTES:
        raise LeftToScan
    return data
