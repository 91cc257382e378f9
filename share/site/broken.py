"""Where a broken link stands: the file of `_site` and its line, in the form that editors make a link of."""
from __future__ import annotations

import re
from collections import Counter, deque
from dataclasses import dataclass
from itertools import groupby, islice
from pathlib import Path
from typing import Iterable, Iterator

from inside import OUTPUT, read_below
from session import MOST_BYTES, Broken
from site_files import Lines
from words import shown

# The grammar of docs/PROFILE.md, "Broken links". The program says which links are broken, and this only where they stand.
FRONT = re.compile(r"<!--|<[A-Za-z][A-Za-z0-9-]*")
ATTRIBUTE = re.compile(
    r"[ \t\n\v\f\r]+(?P<name>[A-Za-z_:][A-Za-z0-9_:.-]*)"
    r"""(?:[ \t\n\v\f\r]*=[ \t\n\v\f\r]*(?:"(?P<double>[^"]*)"|'(?P<single>[^']*)'|(?P<bare>[^ \t\n\v\f\r"'=<>`]+)))?"""
)
TAG_END = re.compile(r"[ \t\n\v\f\r]*/?>")
COMMENT, COMMENT_END = "<!--", "-->"
LEADING = ("href", "src")
# In the place of each of these the program says a `?`.
CONTROL = re.compile(r"[\x00-\x1f\x7f-\x9f]")
# So many lines are said of what is new.
MOST_NEWS = 5


@dataclass(frozen=True)
class Placed:
    """A broken link with its line in the built page; line 1 where the page no longer has it."""

    path: str
    line: int
    value: str

    def told(self) -> str:
        return f"{OUTPUT}/{shown(self.path)}:{self.line}: {shown(self.value)} leads nowhere"


def counted(number: int) -> str:
    return "1 link leads nowhere." if number == 1 else f"{number:,} links lead nowhere."


def news(folder: Path, before: Counter[Broken], now: Counter[Broken]) -> Iterator[str]:
    """Lines for the links that lead nowhere now and did not before, and for those that did: a few, and then how many more there are."""
    broken, gone = now - before, before - now
    for link in islice(placed(folder, broken.elements()), MOST_NEWS):
        yield link.told()
    number = sum(broken.values())
    for old in islice(gone.elements(), max(MOST_NEWS - number, 0)):
        yield f"{OUTPUT}/{shown(old.path)}: {shown(old.value)} is mended, or gone"
    number += sum(gone.values())
    if number > MOST_NEWS:
        yield f"and {number - MOST_NEWS:,} more"


def placed(folder: Path, links: Iterable[Broken]) -> Iterator[Placed]:
    """These links with their lines. Those of a page follow one another, in the order in which they stand there; each page is read once."""
    for path, group in groupby(links, lambda link: link.path):
        text = text_of_page(folder, path)
        lines, places = Lines(text), places_of_values(text)
        for link in group:
            left = places.get(link.value)
            # All links of a page that have one value are broken, or none is, so those with it come in their order.
            yield Placed(path, lines.of(left.popleft()) if left else 1, link.value)


def text_of_page(folder: Path, path: str) -> str:
    """The text of a page; an empty one if no file is there, or a link is on the way. Never waits."""
    try:
        # A page that was built is no longer.
        data = read_below(folder, f"{OUTPUT}/{path}", MOST_BYTES)
    except OSError:
        return ""
    return data.decode(errors="replace")


def places_of_values(text: str) -> dict[str, deque[int]]:
    """The values of a page's links, as the program says them, each with the places where it stands."""
    found: dict[str, deque[int]] = {}
    for value, at in values(text):
        found.setdefault(CONTROL.sub("?", value), deque()).append(at)
    return found


def values(text: str) -> Iterator[tuple[str, int]]:
    """The values of a page's links with their places, in the order in which they stand. No part of the text is read more than a few times."""
    at = 0
    while True:
        front = FRONT.search(text, at)
        if front is None:
            return
        if front[0] == COMMENT:
            end = text.find(COMMENT_END, front.end())
            if end < 0:
                return
            at = end + len(COMMENT_END)
            continue
        at, of_tag = front.end(), []
        while True:
            attribute = ATTRIBUTE.match(text, at)
            if attribute is None:
                break
            at = attribute.end()
            # The group of its value, or that of its name.
            given = attribute.lastgroup or ""
            if given != "name" and attribute["name"].lower() in LEADING:
                of_tag.append((attribute[given], attribute.start(given)))
        end_of_tag = TAG_END.match(text, at)
        if end_of_tag is None:
            # It is no tag, and one may begin within it.
            at = front.start() + 1
        else:
            at = end_of_tag.end()
            yield from of_tag
