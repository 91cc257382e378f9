"""Notes of tables: what Kramdown or GitHub read as one and is text here, and what comes out as rows."""
from __future__ import annotations

import re
from dataclasses import dataclass
from typing import Callable, Iterator, Optional

# A pipe that ends a cell, and one in front of a line or at its end.
PIPE = re.compile(r"(?<!\\)\|")
FIRST_PIPE = re.compile(r"^\|")
LAST_PIPE = re.compile(r"(?<!\\)\|$")
DASHES = re.compile(r":?-+:?")
# The same with what Kramdown takes between its columns, and for the line above a footer.
LINE_OF_SIGNS = re.compile(r"[|:+ \t]*[-=][|:+ \t=-]*")
UNDERLINE = re.compile(r" {0,3}(?:-+|=+)[ \t]*")
QUOTED = re.compile(r" {0,3}> ?")
# What a paragraph ends before, and what a list item's first paragraph stands after.
OTHER_BLOCK = re.compile(r" {0,3}(?:#{1,6}(?:[ \t]|$)|<)")
ITEM = re.compile(r" {0,3}(?:[-*+]|\d{1,9}[.)])[ \t]+")
DEFINITION = re.compile(r" {0,3}\[[^\[\]\n]+\]:")
WHITE = " \t\r\v\f"

IS_TEXT = "a table is text"
ARE_ROWS = "a footer, or a further body of a table, comes out as rows"


@dataclass(frozen=True)
class Line:
    """A line of a paragraph: its number, counted from 0; as it is, and with spaces in the place of code."""

    at: int
    text: str
    shown: str


def add(say: Callable[[int, str, str], None], texts: list[str], shown: list[str]) -> None:
    """Says what there is to say of the tables in a text, of which these are the lines, as they are and with spaces in the place of code."""
    for lines in paragraphs(texts, shown):
        if not any("|" in line.text for line in lines):
            continue
        if is_table(lines):
            later = next((line for line in lines[2:] if "|" in line.text and is_line_of_signs(line.text)), None)
            if later:
                say(later.at, ARE_ROWS, "write a table of its own")
        else:
            first = first_elsewhere(lines)
            if first is not None:
                say(lines[first].at, IS_TEXT, remedy(lines, first))


def paragraphs(texts: list[str], shown: list[str]) -> Iterator[list[Line]]:
    """Lines that belong together, without the marks of quotes and items around them, and without definitions of links before them."""
    found: list[Line] = []
    for at, (text, other) in enumerate(zip(texts, shown)):
        text, other = without_quotes(text, other)
        item = ITEM.match(text)
        if not other.strip() or item or OTHER_BLOCK.match(text):
            yield found
            found = []
        if item:
            text, other = text[item.end() :], other[item.end() :]
        if other.strip() and not OTHER_BLOCK.match(text) and (found or not DEFINITION.match(text)):
            found.append(Line(at, text, other))
    yield found


def without_quotes(text: str, shown: str) -> tuple[str, str]:
    mark = QUOTED.match(text)
    while mark:
        text, shown = text[mark.end() :], shown[mark.end() :]
        mark = QUOTED.match(text)
    return text, shown


def cells(line: str) -> list[str]:
    """The cells of a line."""
    inner = LAST_PIPE.sub("", FIRST_PIPE.sub("", line.strip(WHITE)))
    return [cell.strip(WHITE) for cell in PIPE.split(inner)]


def are_dashes(line: str) -> bool:
    """Whether each cell of a line is hyphens, with or without colons."""
    return all(DASHES.fullmatch(cell) for cell in cells(line))


def is_line_of_signs(line: str) -> bool:
    """Whether a line separates parts of a table for Kramdown."""
    return bool(LINE_OF_SIGNS.fullmatch(line.strip(WHITE)))


def is_headed(header: Line, dashes: Line) -> bool:
    """Whether one line is a header, and the next its row of hyphens."""
    return are_dashes(dashes.text) and len(cells(header.text)) == len(cells(dashes.text))


def is_table(lines: list[Line]) -> bool:
    """Whether lines are a table here: docs/PROFILE.md, "Tables"."""
    return len(lines) > 1 and "|" in lines[1].text and is_headed(lines[0], lines[1]) and not underline(lines)


def underline(lines: list[Line]) -> Optional[Line]:
    """The line that makes a heading of those above it."""
    return next((line for line in lines[1:] if UNDERLINE.fullmatch(line.text.rstrip(WHITE))), None)


def first_elsewhere(lines: list[Line]) -> Optional[int]:
    """Where a table begins for Kramdown, or else for GitHub: nothing when it is none for both."""
    # For Kramdown each line has a pipe that is not in code.
    if all(PIPE.search(line.shown) for line in lines):
        return 0
    for at in range(len(lines) - 1):
        if "|" in lines[at].text and is_headed(lines[at], lines[at + 1]):
            return at
    return None


def remedy(lines: list[Line], first: int) -> str:
    """What makes a table of lines that are none here."""
    if first > 0:
        return "put a blank line before it"
    if underline(lines):
        return "put a blank line before the line of signs below it"
    second = lines[1].text if len(lines) > 1 else ""
    if "+" in second and is_line_of_signs(second):
        return "write | for each + in its row of hyphens"
    if are_dashes(second) and "|" not in second:
        return "write a | in its row of hyphens"
    if are_dashes(second) and len(cells(lines[0].shown)) == len(cells(second)):
        return "write \\| for each pipe in its code"
    if are_dashes(second):
        return "give its row of hyphens as many cells as its first line has"
    return "write a row of hyphens (|---|---|) below its first line; where none is meant, write \\| for each |"
