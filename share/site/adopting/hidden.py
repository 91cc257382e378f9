"""Text that Kramdown hides by `{::comment}`, and that is shown here."""
from __future__ import annotations

import bisect
import re
from dataclasses import dataclass

from adopting.adoption import Adoption
from adopting.files import with_front_matter
from adopting.settings import is_kramdown, is_markdown
from adopting.tags import all_pieces
from configuration import Hash
from site_files import Lines, head_of, write_text

START = re.compile(r"\{::comment(?:[ \t](?:(?![{}\n]|/\}).)*)?\}")
END = re.compile(r"\{:/(?:comment)?\}")
# A mark that has a line for itself ends at such a mark, and another one in its paragraph.
ALONE = re.compile(r"^ {0,3}(\{:[:/][^{}\n]*\})[ \t]*\r?$", re.M)
BLANK_LINE = re.compile(r"\n[ \t\r]*\n")
FENCE = re.compile(r" {0,3}(`{3,}|~{3,})")


@dataclass(frozen=True)
class Hidden:
    """A hidden text with its marks: where the first begins and ends, and so the last."""

    start: int
    inner: int
    inner_end: int
    end: int

    def text(self, whole: str) -> str:
        return whole[self.inner : self.inner_end]


def hidden_texts(text: str, start: int) -> list[Hidden]:
    """The texts that Kramdown hides from this place on, without those in code and in what is raw."""
    if "{::comment" not in text:
        return []
    alone = {found.start(1) for found in ALONE.finditer(text, start)}
    ends = [found.span() for found in END.finditer(text, start)]
    ends_alone = [span for span in ends if span[0] in alone]
    blanks = [found.start() for found in BLANK_LINE.finditer(text, start)]
    raw = [(piece.start, piece.end) for piece in all_pieces(text, start) if piece.is_whole]
    ticks = [found.start() for found in re.finditer("`", text)]
    code, of = lines_of_code(text.split("\n")), Lines(text)
    found: list[Hidden] = []
    for opened in START.finditer(text, start):
        at = opened.start()
        line = of.of(at)
        ticks_before = bisect.bisect_left(ticks, at) - bisect.bisect_left(ticks, of.begin(line))
        if found and at < found[-1].end or line - 1 in code or ticks_before % 2 or is_within(raw, at):
            continue
        closing = ends_alone if at in alone else ends
        number = bisect.bisect_left(closing, (opened.end(), 0))
        if number < len(closing) and (at in alone or closing[number][0] < next_of(blanks, at)):
            found.append(Hidden(at, opened.end(), *closing[number]))
    return found


def next_of(places: list[int], at: int) -> float:
    """The first of these places that is not before another."""
    number = bisect.bisect_left(places, at)
    return places[number] if number < len(places) else float("inf")


def is_within(spans: list[tuple[int, int]], at: int) -> bool:
    number = bisect.bisect_right(spans, (at, at)) - 1
    return number >= 0 and spans[number][0] <= at < spans[number][1]


def lines_of_code(lines: list[str]) -> set[int]:
    """The numbers of the lines, counted from 0, that are code between fences, or by their indent after a blank line."""
    found, fence = set(), ""
    for at, line in enumerate(lines):
        mark = FENCE.match(line)
        if fence or mark:
            found.add(at)
            if mark and not fence:
                fence = mark[1]
            elif mark and mark[1].startswith(fence) and not line[mark.end() :].strip("`~ \t\r"):
                fence = ""
        elif line.startswith(("    ", "\t")) and (at == 0 or not lines[at - 1].strip() or at - 1 in found):
            found.add(at)
    return found


def hide_texts(adoption: Adoption, config: Hash) -> None:
    """Has templates hide what Kramdown hides. What has tags in it is left, since these would not be run any more."""
    if not is_kramdown(config):
        return
    for path, text in with_front_matter(adoption).items():
        if not is_markdown(config, path):
            continue
        parts, at, lines = [], 0, Lines(text)
        for one in hidden_texts(text, head_of(text).end()):
            inner = one.text(text)
            if "{%" in inner or inner.count("{{") != inner.count("}}"):
                continue
            parts += [text[at : one.start], "{% comment %}", inner, "{% endcomment %}"]
            at = one.end
            adoption.done(f"{path}:{lines.of(one.start)}", "{::comment} is {% comment %} now, so the text in it stays hidden")
        if parts:
            write_text(adoption.folder / path, "".join([*parts, text[at:]]))
