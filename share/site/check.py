"""`site check` and `site build`: one run of the program in the folder of a site."""
from __future__ import annotations

import subprocess
import sys
from contextlib import closing
from pathlib import Path

import beside
import words
from calling import piped
from notes.telling import Telling


def run_program(command: list[str], folder: Path) -> int:
    """Runs the program in a folder, and returns its status. A terminal gets what it says with `?` for all that could steer it; a file or a pipe gets the replies as they are."""
    if not sys.stdout.isatty():
        return subprocess.run(command, cwd=folder, stdin=subprocess.DEVNULL).returncode
    # By one way, so that a sentence does not come before its reply.
    sentences = subprocess.STDOUT if sys.stderr.isatty() else None
    with subprocess.Popen(command, cwd=folder, stdin=subprocess.DEVNULL, stdout=subprocess.PIPE, stderr=sentences) as process:
        for line in piped(process.stdout):
            print(words.shown(line.decode(errors="replace").rstrip("\n")), flush=True)
    return process.returncode


def run(word: str, arguments: list[str], program: str, jobs: bool, styles: bool) -> int:
    """Does `check` or `build`; the status of the program. The notes are made meanwhile, and change no status."""
    reader = words.parser(word)
    words.add_site(reader, jobs=jobs)
    given = reader.parse_args(arguments)
    if styles:
        tell(beside.styles(given.folder, program))
    with closing(Telling(given.folder, program)) as telling:
        telling.begin()
        try:
            status = run_program([program, word, *words.passed_on(given)], given.folder)
        except OSError as error:
            raise words.Refused(f"the program cannot be started ({error.strerror}): {words.shown(program)}") from error
        # A check is asked for all there is to say, and a build is not to wait for it.
        tell(telling.lines(faulty=status == 1, limited=word == "build"))
    # What a shell says of a program that a signal has ended.
    return status if status >= 0 else 128 - status


def tell(lines: list[str]) -> None:
    """Prints lines. When nobody can have them, nothing more is printed."""
    try:
        print("".join(f"{line}\n" for line in lines), end="", flush=True)
    except OSError:
        words.say_no_more()


def main(arguments: list[str], program: str) -> int:
    return run("check", arguments, program, jobs=False, styles=False)
