"""`site why`: tries edits of a file in a copy of its site, and draws which pages they touch, and by what these read of it."""
from __future__ import annotations

import os
import re
import tempfile
import time
from contextlib import closing
from dataclasses import dataclass
from itertools import islice
from pathlib import Path
from typing import Optional

import drawing
import words
from building import Builder
from client import Ended
from configuration import CONFIG
from drawing import Edit
from faults import explain
from pages import with_script
from scanned import entries_of, is_entered, join
from session import Built, Failed, LeftToScan, Session, can_be_told, read_source

MOST_EDITS = 16
MOST_SHOWN = 100
NEWLINE = b"\n"
YAML = (".yml", ".yaml")
FRONT = re.compile(rb"\A(?:\xef\xbb\xbf)?---[ \t]*\r?\n(.*?)^(?:---|\.\.\.)[ \t]*$", re.DOTALL | re.MULTILINE)
# A line of YAML whose value is a bare text that ends with a letter.
VALUE = re.compile(rb"^[ \t]*(?:- +)?[A-Za-z0-9_-]+: +(?![ \[{|>&*!'\"#])[^#\n]*[a-z]$|^[ \t]*- +[A-Za-z][^:#\n]*[a-z]$", re.MULTILINE)
TRUTHS = (b"true", b"false", b"yes", b"no", b"on", b"off", b"null")
TITLE = re.compile(rb"^title:.*$", re.MULTILINE)
# The last letter of the last text of JSON, and of a field of a table.
TEXT = re.compile(rb"[a-z](?=\"\s*[\]},])")
FIELD = re.compile(rb"[a-z](?=[\",\t\r]*$)", re.MULTILINE)


@dataclass(frozen=True)
class Trial:
    """An edit that is tried: what it is, and what the file is then."""

    what: str
    data: bytes


def trials(path: str, data: bytes) -> list[Trial]:
    """The edits that tell something of a file."""
    extension = os.path.splitext(path)[1].lower()
    if path == CONFIG or path.startswith("_data/"):
        return value_trials(extension, data)
    found = [Trial("its text", data + b"\n<!-- edited -->\n")]
    front = FRONT.match(data)
    title = TITLE.search(data, front.start(1), front.end(1)) if front else None
    if title:
        found.append(Trial("its title", data[: title.start()] + b"title: An edited title" + data[title.end() :]))
    return found


def value_trials(extension: str, data: bytes) -> list[Trial]:
    """A letter at the end of each value that is a plain text, for the first of them."""
    pattern = VALUE if extension in YAML else TEXT if extension == ".json" else FIELD
    values = (match for match in pattern.finditer(data) if not (extension in YAML and match[0].split()[-1] in TRUTHS))
    return [value_trial(data, match.end()) for match in islice(values, MOST_EDITS)]


def value_trial(data: bytes, at: int) -> Trial:
    """One more letter at this place."""
    begin, end = data.rfind(b"\n", 0, at) + 1, data.find(b"\n", at)
    line = data[begin : end if end >= 0 else len(data)].decode(errors="replace").strip()
    return Trial(f"line {data.count(NEWLINE, 0, at) + 1}: {line[:MOST_SHOWN]}", data[:at] + b"x" + data[at:])


def main(arguments: list[str], program: str) -> int:
    reader = words.parser("why")
    reader.add_argument("file", type=Path, metavar="FILE", help="a file of the site")
    reader.add_argument("--site", type=words.a_folder, metavar="FOLDER", help="the folder of the site; without it, the next one above the file with a _config.yml")
    reader.add_argument("--to", type=Path, metavar="PAGE", help="writes the page to this new file")
    given = reader.parse_args(arguments)
    file = Path(os.path.abspath(given.file))
    # From the site's folder on no link is followed.
    site = (given.site or site_of(file)).resolve()
    path = os.path.relpath(file.parent.resolve() / file.name, site)
    edits = try_edits(program, site, path)
    for edit in edits:
        print(edit.told())
    place = write_page(drawing.page(path, edits), given.to)
    print(f"look at it: {place.as_uri()}")
    return 0


def site_of(file: Path) -> Path:
    """The folder of the site that a file belongs to."""
    for folder in file.parents:
        if (folder / CONFIG).is_file():
            return folder
    raise words.Refused(f"no folder above {words.shown(os.fspath(file))} has a {CONFIG}; name the site's with --site")


def write_page(page: str, to: Optional[Path]) -> Path:
    try:
        if to is None:
            number, name = tempfile.mkstemp(prefix="why-", suffix=".html")
        else:
            number, name = os.open(to, os.O_WRONLY | os.O_CREAT | os.O_EXCL | os.O_CLOEXEC, 0o644), os.path.abspath(to)
        with open(number, "w", encoding="utf-8", errors="backslashreplace") as file:
            file.write(page)
    except OSError as error:
        raise words.Refused(f"the page cannot be written: {error.strerror}: {words.shown(os.fspath(to or tempfile.gettempdir()))}") from error
    return Path(name)


def try_edits(program: str, site: Path, path: str) -> list[Edit]:
    """What each trial touches, in a copy of the site, so that the site and its `_site` stay as they are."""
    try:
        data = read_source(site, path) if can_be_told(path) and not path.startswith("..") else None
    except LeftToScan:
        data = None
    if data is None:
        raise words.Refused(f"{words.shown(path)} is no file of the site {words.shown(os.fspath(site))}")
    with tempfile.TemporaryDirectory(prefix="site-why-") as room:
        try:
            copy_sources(site, Path(room))
        except (OSError, LeftToScan) as error:
            raise words.Refused(f"a file of the site cannot be copied, so `site check` has to be clean first ({error or 'too long'})") from error
        try:
            with closing(Session(program, Path(room), [])) as session:
                failed = session.scan()
                first = failed or session.build(int(time.time()))
                if isinstance(first, Failed):
                    raise words.Refused(f"the site has a fault, mend it first: {explain(program, Path(room), [], first).told()}")
                return [try_edit(session, path, data, trial) for trial in trials(path, data)]
        except Ended as ended:
            raise words.Refused(str(ended)) from ended


def try_edit(session: Session, path: str, data: bytes, trial: Trial) -> Edit:
    """Builds with the edit, and takes it back."""
    # One moment for both, so that it is no reason.
    moment = int(time.time())
    session.build(moment)
    session.put(path, trial.data)
    outcome = session.build(moment)
    session.put(path, data)
    session.build(moment)
    if isinstance(outcome, Built):
        return Edit(trial.what, outcome.whys, outcome.rendered + outcome.reused, outcome.written)
    return Edit(trial.what, [], 0, 0, "this edit would be a fault of the site")


def copy_sources(site: Path, room: Path) -> None:
    """Copies what a scan would read."""
    left = [""]
    while left:
        folder = left.pop()
        (room / folder).mkdir(exist_ok=True)
        with entries_of(site, folder) as entries:
            for entry in entries:
                path = join(folder, entry.name)
                if entry.is_dir(follow_symlinks=False):
                    left += [path] if is_entered(folder, entry.name) else []
                elif entry.is_file(follow_symlinks=False):
                    copy_file(site, room, path)


def copy_file(site: Path, room: Path, path: str) -> None:
    try:
        # Nothing writes to it, so a second name will do if both are on one disk.
        os.link(site / path, room / path, follow_symlinks=False)
    except OSError:
        data = read_source(site, path)
        if data is not None:
            (room / path).write_bytes(data)


def last_build(builder: Builder, version: str) -> bytes:
    """The page about the last build of a site that is served."""
    last = builder.last
    edits = [Edit("the last build", last.whys, last.rendered + last.reused, last.written)] if last else []
    name = ", ".join(sorted(builder.edited)[:3]) or "the site"
    return with_script(drawing.page(name, edits).encode(errors="backslashreplace"), version)
