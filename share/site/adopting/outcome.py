"""Asks the program which files of a site come out. It is given their front matter, and a number in place of each text."""
from __future__ import annotations

import re
import threading
from dataclasses import dataclass, field, replace
from pathlib import Path
from typing import Any, Optional

from client import Ended
from configuration import CONFIG, Settings, is_in_braces, lines_of
from inside import OUTPUT, read_below
from session import Failed, Session
from site_files import NotRead, list_files, scratch

# A question takes longer than this in no site within the limits, even on a slow machine.
SECONDS = 300.0
# What stands in place of a text, and in an address. No template and no Markdown makes anything else of it.
NUMBER = re.compile(r"n(\d+)n")
REPLY = re.compile(r"fault F\d+ \d+ (.*)")


@dataclass
class Outcome:
    """The sources that come out, and those of which that is asked without their front matter, as the program does not read it."""

    sources: set[str] = field(default_factory=set)
    unread: set[str] = field(default_factory=set)


@dataclass(frozen=True)
class Question:
    """The settings that say what comes out."""

    include: list[str]
    exclude: list[str]
    # Each is asked of as if it had output.
    collections: list[str]
    defaults: list[Any]
    unpublished: bool

    def text(self) -> str:
        """A configuration of these settings alone, so that no fault in another one keeps the answer back."""
        names = {name: {"output": True} for name in self.collections if re.fullmatch(r"[A-Za-z0-9_-]+", name)}
        values = {"include": self.include, "exclude": self.exclude, "collections": names, "defaults": self.defaults, "unpublished": self.unpublished}
        return "".join(f"{line}\n" for key, value in values.items() if value != [] or key == "include" for line in lines_of(key, value))


def ask(program: str, question: Question, heads: dict[str, Optional[str]]) -> Outcome:
    """What comes out of the files with this front matter (nothing for a file that has none), drafts and later dates included.

    Raises NotRead when the program does not answer.
    """
    with scratch() as room:
        try:
            session = Session(program, room, ["--drafts", "--future"])
        except Ended as error:
            raise NotRead(str(error)) from error
        timer = threading.Timer(SECONDS, session.process.kill)
        timer.daemon = True
        timer.start()
        try:
            return answer(session, room, question, heads)
        except Ended as error:
            raise NotRead(f"what comes out is not known: {error}") from error
        finally:
            timer.cancel()
            session.close()


def answer(session: Session, room: Path, question: Question, heads: dict[str, Optional[str]]) -> Outcome:
    outcome = Outcome()
    paths = [path for path in heads if path != CONFIG]
    numbers = {path: number for number, path in enumerate(paths)}
    session.scan()
    session.put(CONFIG, question.text().encode())
    session.put_all({path: text_of(path, numbers[path], heads[path]).encode("utf-8", "surrogateescape") for path in paths})
    while True:
        built = session.build(0)
        if not isinstance(built, Failed):
            break
        match = REPLY.fullmatch(built.reply)
        path = match[1] if match else ""
        if path == CONFIG and question.defaults:
            # Without them more comes out, so nothing is missed.
            question = replace(question, defaults=[])
            session.put(CONFIG, question.text().encode())
            continue
        if path not in numbers or path in outcome.unread:
            raise NotRead(f"what comes out is not known, since a scratch site was not built: {built.reply}")
        outcome.unread.add(path)
        session.put(path, text_of(path, numbers[path], "").encode())
    for output in list_files(room / OUTPUT).files:
        found = NUMBER.search(read_below(room / OUTPUT, output).decode(errors="replace"))
        if found:
            outcome.sources.add(paths[int(found[1])])
    return outcome


def text_of(path: str, number: int, head: Optional[str]) -> str:
    """What the program gets of a file. An address of its own keeps an output from standing in the place of another."""
    mark = f"n{number}n"
    if path.startswith("_layouts/"):
        return "{{ content }} " + mark
    if path.startswith("_data/"):
        # A text in YAML and in JSON, and the only name of a table.
        return f'"{mark}"'
    if head is None or path.startswith("_includes/"):
        return mark
    settings = Settings(head)
    if not is_in_braces(head):
        settings.set("permalink", f"/{mark}.html")
    return f"---\n{settings.text()}---\n{mark}\n"
