"""The words of `site`, how each is called, and what their command lines share."""
from __future__ import annotations

import argparse
import importlib.util
import os
import sys
from dataclasses import dataclass
from pathlib import Path
from typing import Callable, NoReturn

MOST_JOBS = 64
FIRST_PORT = 4000


class Refused(Exception):
    """What is asked for cannot be done; says why, and what to do."""

    def __init__(self, why: str, status: int = 1):
        super().__init__(why)
        self.status = status


@dataclass(frozen=True)
class Word:
    usage: str
    does: str
    example: str


WORDS = {
    "new": Word("FOLDER", "starts a new site, with posts, pages, layouts and a style", "site new my-blog"),
    "serve": Word(
        "[FOLDER] [--port N] [--drafts] [--future] [--jobs N]",
        "builds a site after each save and shows it in the browser, which reloads by itself",
        "site serve my-blog",
    ),
    "watch": Word("[FOLDER] [--drafts] [--future] [--jobs N]", "builds a site after each save", "site watch my-blog"),
    "check": Word("[FOLDER] [--drafts] [--future]", "reports the first fault of a site, and writes nothing", "site check my-blog"),
    "build": Word("[FOLDER] [--drafts] [--future] [--jobs N]", "builds a site into its folder _site", "site build my-blog --jobs 4"),
    "links": Word("[FOLDER] [--drafts] [--future] [--jobs N]", "builds a site once, and says which links of its pages lead nowhere", "site links my-blog"),
    "why": Word(
        "FILE [--to PAGE]",
        "shows which pages an edit of a file touches, and why",
        "site why my-blog/_data/menu.yml",
    ),
    "adopt": Word(
        "FOLDER [--write] [--theme FOLDER]",
        "makes a Jekyll site ready, in a copy beside it, and says what was done and what is left",
        "site adopt my-jekyll-site",
    ),
}


def listing() -> str:
    """All words, with an example each."""
    lines = ["site: starts, builds and shows Jekyll sites, with sitebuild", ""]
    for name, word in WORDS.items():
        if is_here(name):
            lines += [f"  site {name} {word.usage}", f"      {word.does}", f"      {word.example}"]
    lines += ["", "Without FOLDER, the current folder is used. `site WORD --help` says more, and `site --version` what is installed."]
    return "\n".join(lines)


def is_here(word: str) -> bool:
    """Whether this copy of the script has the part that does a word."""
    return importlib.util.find_spec(word) is not None


def shown(text: str) -> str:
    """A text from outside as it may be shown on a terminal: `?` for each character that could steer it."""
    return "".join(sign if sign.isprintable() else "?" for sign in text)


def say_no_more() -> None:
    """Whoever read what is said has gone, or cannot take it. Python would fail once more when it flushes standard output."""
    os.dup2(os.open(os.devnull, os.O_WRONLY), sys.stdout.fileno())


class Reader(argparse.ArgumentParser):
    """A reader of a command line, which shows a wrong word as a terminal may have it."""

    def error(self, message: str) -> NoReturn:
        super().error(shown(message))


def parser(name: str) -> argparse.ArgumentParser:
    """A reader of the command line of a word, without anything in it yet."""
    return Reader(
        prog=f"site {name}", usage=f"site {name} {WORDS[name].usage}", description=WORDS[name].does, allow_abbrev=False
    )


def number(least: int, most: int) -> Callable[[str], int]:
    """What reads an option's number."""

    def read(text: str) -> int:
        if not text.isascii() or not text.isdigit() or not least <= int(text) <= most:
            raise argparse.ArgumentTypeError(f"a number from {least} to {most} is needed")
        return int(text)

    return read


def a_folder(text: str) -> Path:
    try:
        path = Path(text).resolve(strict=True)
    except OSError as error:
        raise argparse.ArgumentTypeError(f"there is no folder {shown(text)} ({error.strerror})") from error
    if not path.is_dir():
        raise argparse.ArgumentTypeError(f"{shown(text)} is no folder")
    return path


def add_site(of: argparse.ArgumentParser, jobs: bool) -> None:
    """The folder of a site, and the options that are passed on to the program."""
    of.add_argument("folder", nargs="?", default=".", type=a_folder, metavar="FOLDER", help="the folder of the site")
    of.add_argument("--drafts", action="store_true", help="builds the drafts too")
    of.add_argument("--future", action="store_true", help="builds what has a later date too")
    if jobs:
        of.add_argument("--jobs", type=number(1, MOST_JOBS), metavar="N", help="renders with N threads")


def add_poll(of: argparse.ArgumentParser) -> None:
    of.add_argument("--poll", action="store_true", help="looks for saves five times a second, as on a disk of another machine")


def passed_on(given: argparse.Namespace) -> list[str]:
    """The program's own options."""
    options = [f"--{name}" for name in ("drafts", "future") if getattr(given, name)]
    if getattr(given, "jobs", None):
        options += ["--jobs", str(given.jobs)]
    return options
