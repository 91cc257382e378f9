"""What is served for an address: a file of `_site`, found and read without leaving it, and changed for whoever looks on."""
from __future__ import annotations

import errno
import html
import mimetypes
import os
import re
import stat
import string
from dataclasses import dataclass
from pathlib import Path
from typing import BinaryIO, Optional
from urllib.parse import quote, unquote_to_bytes

from inside import OUTPUT, open_below
from session import MOST_BYTES
from settings import Settings

PARTS = Path(__file__).parent
# Below this are the script's own files. No page has this address by itself, since a name with a dot in front is hidden.
OWN = "/.site/"
# What `mimetypes` does not know in each version of python or on each system.
TYPES = {
    ".html": "text/html",
    ".htm": "text/html",
    ".css": "text/css",
    ".js": "text/javascript",
    ".mjs": "text/javascript",
    ".json": "application/json",
    ".map": "application/json",
    ".webmanifest": "application/manifest+json",
    ".xml": "application/xml",
    ".xhtml": "application/xhtml+xml",
    ".atom": "application/atom+xml",
    ".rss": "application/rss+xml",
    ".svg": "image/svg+xml",
    ".txt": "text/plain",
    ".md": "text/plain",
    ".csv": "text/csv",
    ".ico": "image/x-icon",
    ".webp": "image/webp",
    ".avif": "image/avif",
    ".woff": "font/woff",
    ".woff2": "font/woff2",
    ".wasm": "application/wasm",
}
KNOWN = mimetypes.MimeTypes()
TEXTS = re.compile(r"text/|application/(json|xml|javascript)$|application/.*\+(xml|json)$|image/svg\+xml$")
BODY_END = re.compile(rb"</body\s*>", re.IGNORECASE)
# What may not follow an address: with it, the address is another one.
GOES_ON = rb"(?![A-Za-z0-9-]|\.[A-Za-z0-9]|:[0-9]|@)"

# What leads elsewhere, and what tools keep for themselves in `_site`.
NEVER_SERVED = {b".", b"..", b".git", b".svn", b".hg"}
NO_PAGE = "The site has no page at this address, and no 404.html of its own."
NO_BUILD = "The page appears as soon as the site is built."


@dataclass
class Answer:
    """What is sent: a status and a type, and a text or an open file, or the address to go to."""

    status: int
    kind: str = ""
    data: bytes = b""
    file: Optional[BinaryIO] = None
    size: int = 0
    moved: str = ""


def type_of(name: str) -> str:
    extension = os.path.splitext(name)[1].lower()
    kind = TYPES.get(extension) or KNOWN.guess_type("x" + extension)[0] or "application/octet-stream"
    return kind + "; charset=utf-8" if TEXTS.match(kind) else kind


def own_file(name: str) -> bytes:
    return (PARTS / name).read_bytes()


def segments_of(path: bytes) -> Optional[list[bytes]]:
    """The names in a path, which begins with `/`; none if one of them could lead out of the site."""
    if b"\0" in path:
        return None
    segments = path[1:].split(b"/")
    if any(segment in NEVER_SERVED for segment in segments) or b"" in segments[:-1]:
        return None
    return segments


def open_page(folder: Path, segments: list[bytes]) -> Optional[int]:
    """Opens what is at a path below a folder, a file or a folder; nothing where nothing is, or a link is on the way."""
    try:
        return open_below(folder, segments)
    except OSError as error:
        if error.errno in (errno.EMFILE, errno.ENFILE, errno.ENOMEM):
            raise
        return None


def kind_of(number: int) -> str:
    mode = os.fstat(number).st_mode
    return "file" if stat.S_ISREG(mode) else "folder" if stat.S_ISDIR(mode) else "other"


class Pages:
    """The pages of one site. `host` is what a request says that it was led to."""

    def __init__(self, folder: Path):
        self.output = folder / OUTPUT
        self.settings = Settings()
        # Read once: `install` may replace them while this runs.
        self.script = own_file("browser.js")
        self.style = own_file("fault.css")
        self.empty = string.Template(own_file("empty.html").decode())

    def answer(self, address: str, host: str, version: str) -> Answer:
        """What is served for an address of the site."""
        base = unquote_to_bytes(self.settings.baseurl)
        place, _, query = address.partition("#")[0].partition("?")
        path, rest = unquote_to_bytes(place), f"?{query}" if query else ""
        if base and path in (b"/", base):
            return Answer(302, moved=quote(base) + "/" + rest)
        if not path.startswith(base + b"/"):
            return self.missing(host, version, f"The site is at {self.settings.baseurl}/, as its baseurl says.")
        segments = segments_of(path[len(base) :])
        return self.find(segments, quote(path) + "/" + rest, host, version) if segments else self.missing(host, version)

    def find(self, segments: list[bytes], as_folder: str, host: str, version: str) -> Answer:
        """The file of this name, the one with `.html` added, or the index of the folder, which is at an address of its own."""
        *folders, name = segments
        names = [name, name + b".html"] if name else [b"index.html"]
        for candidate in names:
            number = open_page(self.output, [*folders, candidate])
            if number is None:
                continue
            kind = kind_of(number)
            if kind == "file":
                return self.read(number, os.fsdecode(candidate), host, version)
            os.close(number)
            if kind == "folder" and not self.has([*folders, name + b".html"]) and self.has([*folders, name, b"index.html"]):
                return Answer(302, moved=as_folder)
        return self.missing(host, version)

    def has(self, segments: list[bytes]) -> bool:
        number = open_page(self.output, segments)
        if number is None:
            return False
        kind = kind_of(number)
        os.close(number)
        return kind == "file"

    def missing(self, host: str, version: str, why: str = "") -> Answer:
        """The site's own page for what it does not have, or one that says so."""
        number = None if why else open_page(self.output, [b"404.html"])
        if number is not None and kind_of(number) == "file":
            answer = self.read(number, "404.html", host, version)
            answer.status = 404
            return answer
        if number is not None:
            os.close(number)
        if self.output.is_symlink():
            why = "_site is a link, and no link is followed."
        built = self.output.is_dir()
        title = "There is no page here" if built else "Nothing has been built yet"
        text = self.empty.substitute(title=title, text=html.escape(why or (NO_PAGE if built else NO_BUILD)))
        return self.whole(404, "text/html; charset=utf-8", text.encode(), host, version)

    def read(self, number: int, name: str, host: str, version: str) -> Answer:
        """A file of `_site`, whole, unless it is longer than a page can be."""
        file = os.fdopen(number, "rb")
        size, kind = os.fstat(number).st_size, type_of(name)
        if size > MOST_BYTES:
            return Answer(200, kind, file=file, size=size)
        with file:
            return self.whole(200, kind, file.read(), host, version)

    def whole(self, status: int, kind: str, data: bytes, host: str, version: str) -> Answer:
        """A text as it is served: its absolute addresses lead to the host, and a page has the script that reloads it."""
        if self.settings.url and TEXTS.match(kind.split(";")[0]):
            data = re.sub(re.escape(self.settings.url.encode()) + GOES_ON, lambda found: f"http://{host}".encode(), data)
        if kind.startswith("text/html"):
            data = with_script(data, version)
        return Answer(status, kind, data, size=len(data))


def with_script(page: bytes, version: str) -> bytes:
    """A page with the script that reloads it, at the end of its body."""
    script = f'<script src="{OWN}browser.js" data-version="{version}" defer></script>'.encode()
    ends = [match.start() for match in BODY_END.finditer(page)]
    at = ends[-1] if ends else len(page)
    return page[:at] + script + page[at:]
