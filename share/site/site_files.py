"""The files of a Jekyll site, their front matter, and what the program reads in YAML."""
from __future__ import annotations

import bisect
import errno
import json
import os
import re
import shutil
import stat
import subprocess
import tempfile
from contextlib import closing, contextmanager
from dataclasses import dataclass, field, replace
from pathlib import Path
from typing import BinaryIO, Iterator, Optional, Union

from calling import SECONDS, NotDone, call
from client import Ended
from faults import read_sentence
from inside import OUTPUT, PASSED_OVER, READING
from scanned import entries_of
from session import MOST_BYTES, MOST_PATH, Failed, Session
from words import shown

# What `site adopt` writes in place of plugins.
TEMPLATES = Path(__file__).resolve().parent / "templates"
# Jekyll and the program leave these out of every site.
ALWAYS_EXCLUDED = [
    ".sass-cache", ".jekyll-cache", "gemfiles", "Gemfile", "Gemfile.lock", "node_modules",
    "vendor/bundle", "vendor/cache", "vendor/gems", "vendor/ruby",
]
# So many bytes are read at once of a page.
SHORT = 65_536
# So many texts are read by one build, or so many bytes: after each fault among them it is asked for anew.
TEXTS_OF_A_BUILD = 250
BYTES_OF_A_BUILD = 67_108_864
# A page that shows what stands in all data files.
ASKING = "values.html"
QUESTION = b"---\n---\n{{ site.data | jsonify }}"

FRONT_MATTER = re.compile(r"\A\ufeff?---[ \t]*\r?\n(.*?)^(?:---|\.\.\.)[ \t]*(?:\r?\n|\Z)(?:[ \t]*\r?\n)*", re.S | re.M)
REPLY = re.compile(r"^fault (F\d+) \d+ (.*)$", re.M)


class NotRead(Exception):
    """The program did not do what was asked of it; says what."""


@dataclass(frozen=True)
class Fault:
    """A fault as the program tells it."""

    path: str
    line: int
    sentence: str
    code: str
    # The key of the configuration that has it, where that is known.
    key: str = ""

    def __str__(self) -> str:
        place = f"{self.path}:{self.line}" if self.line else self.path
        return f"{place}: {self.sentence} ({self.code})"


@dataclass
class Listing:
    """What is in a folder: the files of the site by path, and what is none of them with the reason."""

    files: list[str] = field(default_factory=list)
    links: list[str] = field(default_factory=list)
    odd: list[tuple[str, str]] = field(default_factory=list)


def name_fault(path: str) -> str:
    """Why this is no path of a site; nothing when it is one."""
    try:
        data = path.encode()
    except UnicodeEncodeError:
        return "its name is not UTF-8"
    if not path.isprintable() and any(byte < 32 or byte == 127 for byte in data):
        return "its name holds a control character"
    return "its path is longer than 1,024 bytes" if len(data) > MOST_PATH else ""


def list_files(folder: Path) -> Listing:
    """Goes through the folder as a scan does, and follows no link."""
    found = Listing()
    left = [""]
    while left:
        below = left.pop()
        try:
            with entries_of(folder, below) as entries:
                for entry in sorted(entries, key=lambda one: os.fsencode(one.name)):
                    sort_entry(folder, found, left, below, entry)
        except OSError as error:
            found.odd.append((below or ".", f"it cannot be read ({error.strerror})"))
    found.files.sort(key=os.fsencode)
    return found


def sort_entry(folder: Path, found: Listing, left: list[str], below: str, entry: os.DirEntry[str]) -> None:
    """Adds one name of a folder to what is found, or to the folders that are left."""
    path = f"{below}/{entry.name}" if below else entry.name
    fault = name_fault(path)
    if fault:
        found.odd.append((path, fault))
    elif entry.is_symlink():
        found.links.append(path)
    elif entry.is_dir(follow_symlinks=False):
        if entry.name not in PASSED_OVER and path != OUTPUT:
            left.append(path)
    elif not entry.is_file(follow_symlinks=False):
        found.odd.append((path, "it is no file (a pipe, a socket or a device)"))
    elif not os.access(os.path.join(folder, path), os.R_OK):
        found.odd.append((path, "it cannot be read (Permission denied)"))
    elif path != OUTPUT:
        found.files.append(path)


def open_number(path: Union[str, Path]) -> int:
    """The number of a file that is opened to read. Raises OSError for what is none, and never waits, as opening a fifo would."""
    number = os.open(path, READING)
    if not stat.S_ISREG(os.fstat(number).st_mode):
        os.close(number)
        raise OSError(errno.EINVAL, "it is no file", os.fspath(path))
    return number


def open_file(path: Union[str, Path]) -> BinaryIO:
    """Opens a file, as `open_number` does."""
    return os.fdopen(open_number(path), "rb")


def text_of(data: bytes) -> str:
    """Bytes as a text. Those that are not UTF-8 come back as they were when it is written."""
    return data.decode("utf-8", "surrogateescape")


def read_text(path: Path) -> str:
    """The text of a file."""
    with open_file(path) as file:
        return text_of(file.read())


def write_text(path: Path, text: str) -> None:
    """Puts a text in the place of a file, whole or not at all."""
    write_bytes(path, text.encode("utf-8", "surrogateescape"))


def write_bytes(path: Path, data: bytes) -> None:
    path.parent.mkdir(parents=True, exist_ok=True)
    number, name = tempfile.mkstemp(dir=path.parent, prefix=".site-")
    try:
        with open(number, "wb") as file:
            file.write(data)
        os.chmod(name, stat.S_IMODE(path.stat().st_mode) if path.exists() else 0o666 & ~umask())
        os.replace(name, path)
    except BaseException:
        os.unlink(name)
        raise


def umask() -> int:
    """The rights that new files lack here."""
    mask = os.umask(0)
    os.umask(mask)
    return mask


def front_matter(text: str) -> Optional[re.Match[str]]:
    """The front matter: group 1 is its text, and the body begins after the match."""
    return FRONT_MATTER.match(text)


def head_of(text: str) -> re.Match[str]:
    """The front matter of a text that has some. Raises ValueError for another."""
    found = front_matter(text)
    if found is None:
        raise ValueError("this text has no front matter")
    return found


def begins_with_mark(path: Path) -> bool:
    """Whether a file begins as front matter does."""
    return read_marked(path, SHORT) is not None


def read_marked(path: Union[str, Path], most: int) -> Optional[bytes]:
    """So many bytes of a file that begins as front matter does; nothing of another. Raises OSError as opening and reading do."""
    number = open_number(path)
    try:
        parts = [os.read(number, SHORT)]
        if not parts[0].removeprefix(b"\xef\xbb\xbf").startswith(b"---"):
            return None
        left = most - len(parts[0])
        # Most pages are read by now: less than was asked for means the end.
        while left > 0 and len(parts[-1]) == SHORT:
            parts.append(os.read(number, SHORT))
            left -= len(parts[-1])
        return b"".join(parts)[:most]
    finally:
        os.close(number)


def line_of(text: str, at: int) -> int:
    return text.count("\n", 0, at) + 1


class Lines:
    """The lines of places in a text, for many places."""

    def __init__(self, text: str):
        self.ends = [match.start() for match in re.finditer("\n", text)]

    def of(self, at: int) -> int:
        return bisect.bisect_left(self.ends, at) + 1

    def begin(self, line: int) -> int:
        """The place at which a line begins."""
        return self.ends[line - 2] + 1 if line > 1 else 0


@contextmanager
def scratch() -> Iterator[Path]:
    """A folder that is removed in the end."""
    folder = Path(tempfile.mkdtemp(prefix="site-"))
    try:
        yield folder
    finally:
        shutil.rmtree(folder, ignore_errors=True)


def scratch_outside(site: Path) -> bool:
    """Has each scratch folder from now on made outside of a site: within it, its files would be files of the site. Whether there is a place."""
    for place in (*default_scratch(), "/tmp", "/var/tmp", "/dev/shm", os.fspath(site.parent)):
        real = Path(os.path.realpath(place))
        if real.is_dir() and not real.is_relative_to(site) and os.access(real, os.W_OK | os.X_OK):
            tempfile.tempdir = os.fspath(real)
            return True
    return False


def default_scratch() -> list[str]:
    """The folder for temporary files, if there is one that can be written to."""
    try:
        return [tempfile.gettempdir()]
    except FileNotFoundError:
        return []


def run(program: str, folder: Path, *words: str) -> subprocess.CompletedProcess[str]:
    """Runs the program in a folder; its status, and what it says. Raises NotRead when it cannot be run, or does not end."""
    try:
        done = call([program, *words], folder)
    except NotDone as error:
        raise NotRead(str(error)) from error
    return subprocess.CompletedProcess(words, done.status, done.stdout.decode(errors="replace"), done.stderr.decode(errors="replace"))


def first_fault(said: subprocess.CompletedProcess[str]) -> Optional[Fault]:
    """The fault that the program told; nothing when it told none."""
    reply = REPLY.search(said.stdout)
    if not reply:
        return None
    told = read_sentence(said.stderr.strip(), reply[2])
    return Fault(reply[2], told[2], told[0], reply[1]) if told else Fault(reply[2], 0, "docs/FAULTS.md of sitebuild says what this code means", reply[1])


@dataclass
class Values:
    """What the program reads in texts of YAML, by the name of the text; and the faults of those that it does not read."""

    of: dict[str, object] = field(default_factory=dict)
    faults: dict[str, Fault] = field(default_factory=dict)


def read_values(program: str, texts: dict[str, str]) -> Values:
    """Has the program read texts of YAML, as data files of a session in an empty folder.

    Replies have no sentences. When there is one text alone, the sentence of its fault is asked for; else it is empty.
    Raises NotRead when the program does not do it, and OSError when no folder can be made.
    """
    values, sources = Values(), {name: text.encode("utf-8", "surrogateescape") for name, text in texts.items()}
    for name in [name for name, data in sources.items() if len(data) > MOST_BYTES]:
        values.faults[name] = Fault(name, 0, "the text is longer than 16 MiB", "F2")
        del sources[name]
    try:
        with scratch() as folder, closing(Session(program, folder, [], SECONDS)) as session:
            session.scan()
            session.put(ASKING, QUESTION)
            for names in builds_of(sources):
                read_some(session, folder, {f"_data/v{at}.yml": name for at, name in enumerate(names)}, sources, values)
            if len(texts) == 1:
                add_sentence(program, folder, sources, values)
    except Ended as ended:
        raise NotRead(f"the values of this site are not known: {ended}") from ended
    return values


def builds_of(sources: dict[str, bytes]) -> Iterator[list[str]]:
    """The names of these texts, as many of them together as one build reads."""
    names: list[str] = []
    size = 0
    for name, data in sources.items():
        if len(names) == TEXTS_OF_A_BUILD or size + len(data) > BYTES_OF_A_BUILD:
            yield names
            names, size = [], 0
        names.append(name)
        size += len(data)
    if names:
        yield names


def read_some(session: Session, folder: Path, left: dict[str, str], sources: dict[str, bytes], values: Values) -> None:
    """Adds the values of some texts, which are data files of these paths. Those of an earlier build may still be there."""
    session.put_all({path: sources[name] for path, name in left.items()})
    while True:
        # Nothing that is asked for depends on the moment.
        outcome = session.build(0)
        if not isinstance(outcome, Failed):
            break
        _, code, line, path = [*outcome.reply.split(" ", 3), "", "", ""][:4]
        if path not in left:
            raise NotRead(f"the values of this site are not known: the program replied {shown(outcome.reply)}")
        name = left.pop(path)
        values.faults[name] = Fault(name, int(line), "", code)
        session.delete(path)
    if left:
        read = json.loads((folder / OUTPUT / ASKING).read_text(encoding="utf-8"))
        values.of.update((name, read.get(Path(path).stem)) for path, name in left.items())


def add_sentence(program: str, folder: Path, sources: dict[str, bytes], values: Values) -> None:
    """Asks for the sentence of the fault of the one text that there is."""
    for name, data in sources.items():
        if name in values.faults:
            write_bytes(folder / "_data/v0.yml", data)
            told = first_fault(run(program, folder, "check"))
            if told:
                values.faults[name] = replace(told, path=name)
