"""The outputs and tags of templates, and what is written in place of those that the program lacks."""
from __future__ import annotations

import re
from dataclasses import dataclass, field
from typing import Iterator

from site_files import Lines, front_matter

OPENED = re.compile(r"\{[{%]-?")
# What takes all text up to its end as it is.
WHOLE = {name: re.compile(rf"\{{%-?\s*end{name}\s*-?%\}}") for name in ("raw", "comment")}
TAG = re.compile(r"\{%(?P<left>-?)\s*(?P<name>\w+)\b(?P<words>.*?)(?P<right>-?)%\}", re.S)
ENVIRONMENT = re.compile(r"(?<![\w.\"'-])jekyll\.environment\b")


@dataclass(frozen=True)
class Piece:
    """An output or a tag, or a raw text or a comment with its end. `name` is that of a tag."""

    text: str
    start: int
    name: str = ""
    words: str = ""
    left: str = ""
    right: str = ""
    is_whole: bool = False

    @property
    def end(self) -> int:
        return self.start + len(self.text)


def all_pieces(text: str, start: int = 0) -> Iterator[Piece]:
    """All outputs and tags from here on, raw texts and comments among them. Goes through the text once, whatever it lacks."""
    at, ends = start, {"{{": "}}", "{%": "%}"}
    while ends:
        opened = OPENED.search(text, at)
        if not opened:
            return
        kind = opened[0][:2]
        end = text.find(ends[kind], opened.end()) if kind in ends else -1
        if end < 0:
            # No later one has an end either.
            ends.pop(kind, None)
            at = opened.end()
            continue
        at = end + 2
        tag = TAG.fullmatch(text, opened.start(), at) if kind == "{%" else None
        closed = WHOLE[tag["name"]].search(text, at) if tag and tag["name"] in WHOLE else None
        if closed:
            at = closed.end()
            yield Piece(text[opened.start() : at], opened.start(), is_whole=True)
        elif tag and tag["name"] in WHOLE:
            return
        elif tag:
            yield Piece(tag[0], opened.start(), tag["name"], tag["words"], tag["left"], tag["right"])
        else:
            yield Piece(text[opened.start() : at], opened.start())


def pieces(text: str, start: int = 0) -> Iterator[Piece]:
    """The outputs and tags from here on, without those that are raw or in a comment."""
    return (piece for piece in all_pieces(text, start) if not piece.is_whole)


@dataclass
class Includes:
    """The names of the includes that do the work of plugins' tags, and which of them are used."""

    names: dict[str, str]
    used: set[str] = field(default_factory=set)
    environment: bool = False


def rewrite(text: str, includes: Includes) -> tuple[str, list[tuple[int, str]]]:
    """The template in its new form, and what was done in which line."""
    match = front_matter(text)
    done, parts, at, lines = [], [], 0, Lines(text)
    for piece in pieces(text, match.end() if match else 0):
        new, what = rewritten(piece, includes)
        if new != piece.text:
            parts += [text[at : piece.start], new]
            at = piece.end
            done.append((lines.of(piece.start), what))
    return "".join([*parts, text[at:]]), done


def rewritten(piece: Piece, includes: Includes) -> tuple[str, str]:
    """One output or tag in its new form, and what was done."""
    if piece.name == "include_cached":
        return piece.text.replace("include_cached", "include", 1), "include_cached is include now"
    if piece.name in includes.names:
        includes.used.add(piece.name)
        words = ""
        if piece.name == "seo":
            # Given in any case: without words an include would see those of the include around it.
            words = " title=false" if re.search(r"title\s*=\s*false", piece.words, re.I) else " title=true"
        new = f"{{%{piece.left} include {includes.names[piece.name]}{words} {piece.right}%}}"
        return new, f"the tag {piece.name} is the include {includes.names[piece.name]} now"
    new = ENVIRONMENT.sub("site.environment", piece.text)
    includes.environment |= new != piece.text
    return new, "jekyll.environment is site.environment now"
