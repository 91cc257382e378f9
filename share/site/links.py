"""`site links`: builds a site once, and says which links of its pages lead nowhere."""
from __future__ import annotations

import time
from contextlib import closing
from pathlib import Path
from typing import Optional

import beside
import check
import words
from broken import counted, placed
from client import Ended
from session import Broken, Failed, Session

ALL_LEAD = "All links inside the site lead somewhere."
# A folder that changes while it is read may have a fault once and none when that is asked for: then all is done again.
TRIES = 3


def main(arguments: list[str], program: str) -> int:
    reader = words.parser("links")
    words.add_site(reader, jobs=True)
    given = reader.parse_args(arguments)
    folder, options = given.folder, words.passed_on(given)
    check.tell(beside.styles(folder, program))
    for _ in range(TRIES):
        links = broken_links(program, folder, options)
        if links is not None:
            return tell(folder, links)
        # What is wrong is told as a build tells it.
        status = check.run("build", arguments, program, jobs=True, styles=False)
        if status:
            return status
    raise words.Refused("files of the site are changing all the time, so its links were not looked at; run it again when that is over")


def broken_links(program: str, folder: Path, options: list[str]) -> Optional[list[Broken]]:
    """Builds in one session, and asks for the broken links; nothing where the site was not built."""
    try:
        with closing(Session(program, folder, options)) as session:
            if session.scan() or isinstance(session.build(int(time.time())), Failed):
                return None
            return session.links()
    except Ended as ended:
        raise words.Refused(f"the links were not looked at: {ended}") from ended


def tell(folder: Path, links: list[Broken]) -> int:
    """Prints each link with its place, and how many there are; the status. When nobody can have the lines, nothing more is printed."""
    try:
        for link in placed(folder, links):
            print(link.told())
        print(counted(len(links)) if links else ALL_LEAD)
    except OSError:
        words.say_no_more()
    return 1 if links else 0
