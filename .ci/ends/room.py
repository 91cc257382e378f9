"""What a case of .ci/disk has: a folder of its own, runs of the program there, and what it found."""
from __future__ import annotations

import hashlib
import os
import re
import shutil
import stat
import subprocess
import sys
from dataclasses import dataclass, field
from pathlib import Path
from typing import Callable, Iterable, Mapping, Optional, Sequence

# Behind the folder of the cases: some modules there have the name of one here.
sys.path.append(str(Path(__file__).resolve().parents[2] / "share/site"))

from client import Client, begin  # noqa: E402

# What a terminal must not get; a line ends with LF.
CONTROL = re.compile("[\x00-\x09\x0b-\x1f\x7f-\x9f]")
NOBODY = ("setpriv", "--reuid=65534", "--regid=65534", "--clear-groups")


class PassedOver(Exception):
    """A case that cannot be tried here, with the reason."""


@dataclass(frozen=True)
class Case:
    """What is to happen, what tries it, the seconds after which it counts as hanging, and whether its folder is in memory where that can be."""

    name: str
    play: Callable[[Room], None]
    seconds: float
    in_memory: bool


CASES: list[Case] = []


def case(name: str, seconds: float = 10, in_memory: bool = False) -> Callable[[Callable[[Room], None]], Callable[[Room], None]]:
    """Enters a function as the case of this name."""

    def enter(play: Callable[[Room], None]) -> Callable[[Room], None]:
        CASES.append(Case(name, play, seconds, in_memory))
        return play

    return enter


def needs_root() -> None:
    if os.geteuid() != 0:
        raise PassedOver("it needs root")


def meddling(room: Room, source: Path = Path(__file__).with_name("meddle.c")) -> Path:
    """A library that does to a program what this file of C says."""
    compiler = shutil.which("cc") or shutil.which("gcc") or shutil.which("clang")
    if not compiler:
        raise PassedOver("it needs a compiler of C")
    # Beside the program: what lies in memory is not run on some machines.
    made = room.program.with_name(f"{source.stem}{room.top.name}.so")
    if set(" :") & set(str(made)):
        raise PassedOver("LD_PRELOAD takes no path with a space or a colon")
    ran = subprocess.run([compiler, "-shared", "-fPIC", "-O1", "-o", made, source], stderr=subprocess.PIPE, text=True)
    if ran.returncode != 0:
        raise PassedOver(f"{source.name} does not compile here: {ran.stderr}")
    return made


def text_of(data: bytes) -> str:
    """Bytes as a text; those that are not UTF-8 stay apart."""
    return data.decode("utf-8", "surrogateescape")


def shortened(value: object) -> str:
    text = str(value)
    return text if len(text) <= 400 else f"{text[:400]} .. ({len(text)} characters)"


@dataclass(frozen=True)
class Ran:
    """How a run ended (a signal is a negative status), its replies and its sentences."""

    status: int
    replies: str
    said: str

    @property
    def lines(self) -> list[str]:
        return self.replies.removesuffix("\n").split("\n")


def described(place: Path) -> str:
    """What stands at a place."""
    try:
        there = place.lstat()
    except FileNotFoundError:
        return "nothing"
    if stat.S_ISLNK(there.st_mode):
        return f"a link to {os.readlink(place)}"
    if stat.S_ISDIR(there.st_mode):
        return "a folder"
    if not stat.S_ISREG(there.st_mode):
        return f"neither a file nor a folder, of mode {there.st_mode:o}"
    data = place.read_bytes()
    shown = repr(text_of(data)) if len(data) <= 60 else f"{len(data)} bytes with the sum {hashlib.sha256(data).hexdigest()[:16]}"
    return f"a file of mode {stat.S_IMODE(there.st_mode):o}: {shown}"


def tree(folder: Path) -> dict[str, str]:
    """What stands at each path below a folder. No link is followed."""
    found = {}
    for within, folders, names in os.walk(folder):
        for name in folders + names:
            place = Path(within, name)
            found[str(place.relative_to(folder))] = described(place)
    return found


@dataclass
class Room:
    """The folder of a case: in `site` the program runs, and what stands in `outside` is no business of it."""

    top: Path
    program: Path
    differences: list[str] = field(default_factory=list)

    def __post_init__(self) -> None:
        self.site = self.top / "site"
        self.outside = self.top / "outside"
        self.out = self.site / "_site"
        self.site.mkdir()
        self.outside.mkdir()

    def make(self, files: Mapping[str, str]) -> None:
        """Makes files of the site (or of its output) with the folders around them; a path that ends with `/` is an empty folder."""
        for path, text in files.items():
            place = self.site / path
            if path.endswith("/"):
                place.mkdir(parents=True, exist_ok=True)
                continue
            place.parent.mkdir(parents=True, exist_ok=True)
            place.write_bytes(os.fsencode(text))

    def open_to_all(self) -> None:
        """Lets every user write in the site, for a run that root hands to a user without rights."""
        for within, folders, names in os.walk(self.top):
            os.chmod(within, 0o777)
            for name in names:
                os.chmod(Path(within, name), 0o666)

    @property
    def unprivileged(self) -> tuple[str, ...]:
        """Words that run a program as a user whom permissions bind."""
        if os.geteuid() != 0:
            return ()
        if not shutil.which("setpriv"):
            raise PassedOver("it needs setpriv, or a user who is not root")
        return NOBODY

    def start(self, words: Iterable[str], under: Iterable[str] = (), **streams: object) -> subprocess.Popen[bytes]:
        """Starts the program in the site, by the words `under` where there are any."""
        pipes = {"stdin": subprocess.DEVNULL, "stdout": subprocess.PIPE, "stderr": subprocess.PIPE, **streams}
        return subprocess.Popen([*under, str(self.program), *words], cwd=self.site, **pipes)

    def ended(self, started: subprocess.Popen[bytes], text: bytes = b"") -> Ran:
        """Waits for the end of the program, and looks whether its sentences have the form that they all have."""
        replies, said = started.communicate(text if started.stdin else None)
        ran = Ran(started.returncode, text_of(replies or b""), text_of(said or b""))
        self.is_plain(ran.said)
        return ran

    def run(self, *words: str, under: Iterable[str] = (), **streams: object) -> Ran:
        return self.ended(self.start(words, under, **streams))

    def once(self, **how: object) -> Ran:
        return self.run("once", **how)

    def session(self, under: Sequence[str] = (), env: Optional[Mapping[str, str]] = None) -> Session:
        return Session(self, begin(self.program, self.site, under=under, environment=env, stderr=subprocess.PIPE))

    # ---- what is to be

    def differs(self, what: str, wanted: object, came: object) -> None:
        self.differences += [what, f"    wanted: {shortened(wanted)}", f"    came:   {shortened(came)}"]

    def same(self, what: str, wanted: object, came: object) -> None:
        if wanted != came:
            self.differs(what, wanted, came)

    def matches(self, what: str, pattern: str, came: str) -> None:
        """A text in which the pattern is found."""
        if not re.search(pattern, came):
            self.differs(what, f"a text with {pattern}", repr(came))

    def is_plain(self, said: str) -> None:
        if CONTROL.search(said):
            self.differs("standard error", "nothing that a terminal must not get", repr(said))

    def ends(self, ran: Ran, status: int, *replies: str) -> None:
        """A run with this status, whose last replies are these."""
        self.same("the status", status, ran.status)
        self.same("the last replies", list(replies), ran.lines[-len(replies):])
        self.same("whether standard error has a sentence", status != 0, bool(ran.said))

    def is_built(self, ran: Ran) -> None:
        self.same("the status", 0, ran.status)
        self.matches("the last reply", "^built ", ran.lines[-1])

    def is_marked(self, ran: Ran, *paths: str) -> None:
        """A run in which just the writes or removals at these paths failed."""
        self.ends(ran, 4, f"out-fault {len(paths)}", *(f"marked {path}" for path in paths))

    def fails_the_list(self, ran: Ran, sentence: str) -> None:
        """A run that could not list the output, and says why in one line."""
        self.ends(ran, 4, "out-fault 0")
        self.matches("standard error", sentence, ran.said)
        self.same("the lines of standard error", 1, ran.said.count("\n"))

    def has(self, path: str, text: str) -> None:
        """The output has this text at the path, in a file that is no link."""
        place = self.out / path
        if not place.is_file() or place.is_symlink():
            self.differs(f"_site/{path}", "a file", described(place))
        elif place.read_bytes() != os.fsencode(text):
            self.differs(f"_site/{path}", repr(text) if len(text) <= 60 else f"its {len(text)} bytes", described(place))

    def lacks(self, path: str) -> None:
        if os.path.lexists(self.out / path):
            self.differs(f"_site/{path}", "nothing", described(self.out / path))

    def same_tree(self, what: str, wanted: Mapping[str, str], folder: Path) -> None:
        """A folder that stands as it did."""
        came = tree(folder)
        for path in sorted(set(wanted) | set(came)):
            self.same(f"{what}: {path!r}", wanted.get(path, "nothing"), came.get(path, "nothing"))


class Session:
    """A running session. Each call gives the lines of one reply."""

    def __init__(self, room: Room, process: subprocess.Popen[bytes]) -> None:
        self.room, self.process = room, process
        self.client = Client(process, errors="surrogateescape")

    def __enter__(self) -> Session:
        return self

    def __exit__(self, *_: object) -> None:
        if self.process.poll() is None:
            self.client.kill()

    def ask(self, line: str) -> list[str]:
        return self.client.ask_all(os.fsencode(f"{line}\n"))

    def put(self, path: str, text: str) -> None:
        self.client.put(path, os.fsencode(text))

    def builds(self) -> None:
        """A build that is done."""
        self.room.matches("the reply to build", "^built ", self.ask("build")[0])

    def marks(self, *paths: str) -> None:
        """A build in which just these paths failed."""
        self.room.same("the reply to build", [f"out-fault {len(paths)}", *(f"marked {path}" for path in paths)], self.ask("build"))

    def scans_and_builds(self) -> None:
        self.room.matches("the reply to scan", "^scanned ", self.ask("scan")[0])
        self.builds()

    def end(self) -> Ran:
        return self.room.ended(self.process)
