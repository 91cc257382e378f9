"""Cases of .ci/site: the client of a session, over pipes that are full and programs that do not reply."""
from __future__ import annotations

import os
import sys
from contextlib import closing
from pathlib import Path

from running import ROOT, expect, program

# Behind the modules of these checks.
sys.path.append(str(ROOT / "share/site"))

from client import Client, Ended, begin  # noqa: E402

# More lines than two pipes hold, and more replies than one does.
MANY = 60_000


def full_pipes(room: Path) -> None:
    """Lines are given to the end though nobody asks for the replies, which fill their pipe meanwhile; then they are all there."""
    with closing(Client(begin(program(), room), 30)) as session:
        session.give(b"time 1\n" * MANY)
        expect([session.hear() for _ in range(MANY)] == ["ok"] * MANY, "a reply to one of many lines is lost")
        session.put_all({f"{number}.txt": b"x" * 1000 for number in range(2000)})
        expect(session.ask_all(b"build\n") == ["built rendered=0 reused=0 written=2000 removed=0"], "what was put is not built")
        session.delete("7.txt")
        session.put(b"8.txt", b"other")
        expect(session.ask(b"build\n") == "built rendered=0 reused=0 written=1 removed=1", "a deleted file")


def whole_replies(room: Path) -> None:
    """A reply of several lines is read as one: what was rendered and why, and what could not be written."""
    (room / "_site/a.html/b").mkdir(parents=True)
    with closing(Client(begin(program(), room, "--why"), 30)) as session:
        session.put_all({"a.html": b"---\n---\n", "c.html": b"---\n---\n"})
        expect(session.ask_all(b"build\n") == ["why a.html new", "why c.html new", "built rendered=2 reused=0 written=2 removed=0"], "the reply to a build")
        (room / "_site/a.html").unlink()
        (room / "_site/a.html").mkdir()
        (room / "_site/a.html/kept").write_text("mine")
        session.put("a.html", b"---\n---\nnew")
        said = session.ask_all(b"build\n")
        expect(said == ["out-fault 1", "marked a.html"], f"the reply to a build that fails: {said}")


def no_replies(room: Path) -> None:
    """What takes no lines, does not reply, ends or cannot be started is told within the time that a reply may take."""
    for words, lines, wanted in (
        (["sh", "-c", "exec sleep 60"], b"scan\n", "the program has not replied within 0.5 seconds"),
        (["sh", "-c", "exec sleep 60"], b"x" * (1 << 20), "the program has not replied within 0.5 seconds"),
        (["sh", "-c", "exit 7"], b"scan\n", "the program has ended with status 7"),
        (["sh", "-c", "kill -9 $$"], b"x" * (1 << 20), "the program was ended by signal 9"),
    ):
        session = Client(begin(program(), room, under=words), 0.5)
        try:
            said = session.ask(lines)
        except Ended as ended:
            said = str(ended)
        session.kill()
        expect(said == wanted, f"{words} says {said!r}, and not {wanted!r}")


def words_around(room: Path) -> None:
    """A session has the environment and the words around it that it is given."""
    environment = {**os.environ, "GIVEN": "here"}
    with closing(Client(begin(program(), room, under=["sh", "-c", 'echo "$GIVEN"; exec "$@"', "sh"], environment=environment), 30)) as session:
        expect(session.hear() == "here", "the environment is not the one that was given")
        expect(session.ask(b"time 1\n") == "ok", "the program is not run by the words around it")
