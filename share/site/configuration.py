"""Edits of `_config.yml` that keep its other lines as they are."""
from __future__ import annotations

import json
import re
from typing import Any, Dict, List, Optional

CONFIG = "_config.yml"
KEY = re.compile(r"""^(?P<indent> *)(?P<quote>["']?)(?P<key>[^\s#"'\[\]{},:-](?:[^"':#]*[^"':# \t])?)(?P=quote)[ \t]*:(?=\s|$)""")
# The ends of lines in YAML. Other signs that end lines elsewhere may stand in a value.
LINE_END = re.compile(r"\r\n|\r|\n")
# What YAML reads as this text, and as nothing else.
BARE = re.compile(r"[A-Za-z_./][A-Za-z0-9_./-]*")
OTHER_VALUES = {"null", "true", "false", "yes", "no", "on", "off"}
BEFORE = "# Before `site adopt`:"

# What YAML gives for a mapping. Its values are of any kind, so each is looked at before it is used.
Hash = Dict[str, Any]


def mapping(value: object) -> Hash:
    """A value that is a mapping; an empty one in place of another."""
    return value if isinstance(value, dict) else {}


def listed(value: object) -> List[Any]:
    """A value that is a list; an empty one in place of another."""
    return value if isinstance(value, list) else []


def written(value: object) -> str:
    """A value in YAML, on one line."""
    if isinstance(value, dict):
        return "{" + ", ".join(f"{written(key)}: {written(one)}" for key, one in value.items()) + "}"
    if isinstance(value, list):
        return "[" + ", ".join(written(one) for one in value) + "]"
    if isinstance(value, str) and BARE.fullmatch(value) and value.lower() not in OTHER_VALUES:
        return value
    return json.dumps(value, ensure_ascii=False)


def lines_of(key: str, value: object) -> list[str]:
    """A key and its value in YAML."""
    if isinstance(value, list) and value:
        return [f"{written(key)}:", *(f"  - {written(one)}" for one in value)]
    return [f"{written(key)}: {written(value)}"]


def is_in_braces(text: str) -> bool:
    """Whether a text is a mapping in braces, whose keys have no lines of their own."""
    for line in LINE_END.split(text.lstrip("\ufeff")):
        words = line.strip()
        if words and not words.startswith("#") and words != "---":
            return words.startswith("{")
    return False


def by_lines(text: str, values: Hash) -> str:
    """A configuration in braces, written with a line for each key, below the old text as a comment."""
    old = [f"#   {line}".rstrip() for line in LINE_END.split(text.lstrip("\ufeff").rstrip())]
    return "".join(f"{line}\n" for line in [BEFORE, *old, *(line for key, value in values.items() for line in lines_of(key, value))])


class Settings:
    """The text of a configuration, by its keys."""

    def __init__(self, text: str):
        self.end = "\r\n" if "\r\n" in text else "\n"
        self.lines = LINE_END.split(text)
        if self.lines[-1] == "":
            self.lines.pop()
        first = next((match for match in map(self.key_of, self.lines) if match), None)
        # All keys of a mapping begin in one column.
        self.indent = first["indent"] if first else ""

    def text(self) -> str:
        return "".join(line + self.end for line in self.lines)

    def keys(self) -> list[tuple[str, int]]:
        """Each key and its line, counted from 0."""
        found = ((self.key_of(line), at) for at, line in enumerate(self.lines))
        return [(match["key"], at) for match, at in found if match and match["indent"] == self.indent]

    @staticmethod
    def key_of(line: str) -> Optional[re.Match[str]]:
        return KEY.match(line.lstrip("\ufeff"))

    def place(self, key: str) -> Optional[tuple[int, int]]:
        """The first line of the last block of this key, which counts, and the line after the block."""
        keys = self.keys()
        for number in range(len(keys) - 1, -1, -1):
            if keys[number][0] == key:
                start = keys[number][1]
                end = keys[number + 1][1] if number + 1 < len(keys) else len(self.lines)
                while end > start + 1 and re.match(r"\s*(#|$)", self.lines[end - 1]):
                    end -= 1
                return start, end
        return None

    def line(self, key: str) -> int:
        """The line of a key, counted from 1; 1 where there is no such key."""
        place = self.place(key)
        return place[0] + 1 if place else 1

    def line_with(self, key: str, part: str) -> int:
        """The line of a key's block that holds this part of its value, as a whole word if there is one; else the key's own."""
        place = self.place(key)
        if place and part:
            values = self.lines[place[0] : place[1]]
            values[0] = values[0].partition(":")[2]
            whole = re.compile(rf"(?<![\w.*/-]){re.escape(part)}(?![\w.*/-])")
            for holds in ([whole.search(line) is not None for line in values], [part in line for line in values]):
                if True in holds:
                    return place[0] + holds.index(True) + 1
        return self.line(key)

    def key_at(self, line: int) -> Optional[str]:
        """The key whose block holds this line, counted from 1."""
        before = [key for key, at in self.keys() if at < line]
        return before[-1] if before else None

    def set(self, key: str, value: object) -> None:
        """Gives a key this value. What is in its place now stays as a comment."""
        self.put(key, [self.indent + line for line in lines_of(key, value)])

    def comment_out(self, key: str, why: str) -> None:
        self.put(key, [f"# {why}"])

    def put(self, key: str, lines: list[str]) -> None:
        place = self.place(key)
        if place is None:
            self.lines += lines
            return
        start, end = place
        old = [] if self.is_ours(key, start) else [BEFORE, *(f"#   {line}".rstrip() for line in self.lines[start:end])]
        self.lines[start:end] = [*old, *lines]

    def is_ours(self, key: str, start: int) -> bool:
        """Whether the comment above a key tells what was there before."""
        above = start
        while above and self.lines[above - 1].startswith("#   "):
            above -= 1
        first = self.key_of(self.lines[above][len("#   ") :]) if above < start else None
        return first is not None and first["key"] == key and self.lines[above - 1] == BEFORE

    def remove(self, key: str) -> None:
        """Takes a key out, for a scratch copy. Its lines stay as empty ones, so that no other has a new number."""
        place = self.place(key)
        if place:
            self.lines[place[0] : place[1]] = [""] * (place[1] - place[0])
