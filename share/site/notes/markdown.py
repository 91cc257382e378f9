"""Notes of Markdown: what Kramdown has, and CommonMark lacks."""
from __future__ import annotations

import bisect
import re
from dataclasses import dataclass
from typing import Iterable, Iterator, Optional

from adopting.tags import all_pieces
from notes import tables
from notes.site import Notes

# Code, and what ends it.
CODE_ENDS = [
    (re.compile(r"\{%-?\s*highlight\b"), re.compile(r"\{%-?\s*endhighlight\s*-?%\}")),
    *((re.compile(rf"<{name}\b"), re.compile(f"</{name}>")) for name in ("script", "style", "pre")),
]
# What a line of code, or of its fence, begins with.
FRONTS_OF_CODE = (" ", "\t", "`", "~")
FENCE = re.compile(r"^ {0,3}(`{3,}|~{3,})[ \t]*([^\s`]*)")
TICKS = re.compile(r"`+")
ONE_TICK = re.compile(r"`[^`\n]*`")
DEFINITION = re.compile(r" {0,3}\[[^\[\]\n]+\]:")
# What has quotes and dashes of its own: tags and addresses.
MARKUP = re.compile(r"<[^<>]*>|\]\([^()\n]*\)")


@dataclass(frozen=True)
class Form:
    """What is looked for outside of code; what it means here; the remedy. It is nowhere in a text that has none of the parts."""

    parts: tuple[str, ...]
    pattern: re.Pattern[str]
    what: str
    remedy: str


FORMS = [
    Form(("[^",), re.compile(r"\[\^[^\[\]\s]+\]"), "footnotes are text", "write them in HTML"),
    Form(("toc",), re.compile(r"\{:\s*toc\b|\{::?toc\}"), "a table of contents ({:toc}) is text", "write it in HTML"),
    Form(("{:",), re.compile(r"\{:(?!\s*toc\b|:comment\b|/)[^{}\n]*\}"), "attributes in braces ({: .class}) are text", "write the element in HTML"),
    Form(
        ("](#", "href="), re.compile(r"\]\(#[^()\s]+\)|\bhref=[\"']#[\w-]+"),
        "headings have no ids, so a link to one leads nowhere", "write the heading in HTML, with its id",
    ),
    Form(("~~",), re.compile(r"~~[^~\s][^~\n]{0,999}~~"), "strikethrough is text", "write <del>"),
    Form(
        ("[ ] ", "[x] ", "[X] "), re.compile(r"^[ \t]*[-*+] \[[ xX]\] ", re.M),
        "a task list is text", 'write <input type="checkbox" disabled>',
    ),
    Form(("$$",), re.compile(r"\$\$"), "mathematics is text", "have it set in the browser, within HTML"),
    Form(("markdown=",), re.compile(r"\bmarkdown=[\"'](?:1|block|span)"), "Markdown within HTML is text", "put blank lines around it"),
    Form((": ", ":\t"), re.compile(r"\n(?<=\S\n)[ \t]{0,3}:[ \t]+\S"), "a definition list is text", "write <dl>"),
    Form(("*[",), re.compile(r"^\*\[[^\[\]\n]+\]:", re.M), "an abbreviation is text", "write <abbr>"),
]
REFERENCE = re.compile(r"&([A-Za-z]+);")
KNOWN_REFERENCES = set(
    "amp lt gt quot ndash mdash lsquo rsquo ldquo rdquo bull hellip prime euro trade larr rarr "
    "nbsp iexcl cent pound curren yen brvbar sect uml copy ordf laquo not shy reg macr deg plusmn sup2 sup3 acute micro para middot cedil sup1 "
    "ordm raquo frac14 frac12 frac34 iquest Agrave Aacute Acirc Atilde Auml Aring AElig Ccedil Egrave Eacute Ecirc Euml Igrave Iacute Icirc Iuml "
    "ETH Ntilde Ograve Oacute Ocirc Otilde Ouml times Oslash Ugrave Uacute Ucirc Uuml Yacute THORN szlig agrave aacute acirc atilde auml aring "
    "aelig ccedil egrave eacute ecirc euml igrave iacute icirc iuml eth ntilde ograve oacute ocirc otilde ouml divide oslash ugrave uacute ucirc "
    "uuml yacute thorn yuml".split()
)
QUOTES = re.compile(r"[\"']|(?<!-)--(?!-)|---|\.\.\.")
NO_LINE_END = re.compile(r"[^\n]")
QUOTES_SAID = "straight quotes, -- and ... stay as they are (in Jekyll they become “ ” ’ – …)"


def add(notes: Notes, path: str, text: str, start: int) -> None:
    """Looks through a Markdown text, without what is code, an output or a tag."""
    first = text.count("\n", 0, start) + 1
    body, fences = prose(text[start:])
    for at in fences[:1]:
        notes.add(path, first + at, "code comes out without colours", "colour it in the browser by the class language-..")
    if "|" in body:
        texts = without_templates(text[start:]).split("\n")
        tables.add(lambda at, what, how: notes.add(path, first + at, what, how), texts, body.split("\n"))
    for form in FORMS:
        for part in form.parts:
            if part in body:
                break
        else:
            continue
        found = form.pattern.search(body)
        if found:
            notes.add(path, first + line_at(body, found), form.what, form.remedy)
    for name, at in unknown_references(body).items():
        notes.add(path, first + body.count("\n", 0, at), f"&{name}; is text", "write the character")
    sign = straight_signs(body)
    if sign is not None:
        notes.add(path, first + body.count("\n", 0, sign), QUOTES_SAID, "write the signs themselves")


def is_rule(line: str) -> bool:
    """Whether a line of dashes, stars or underscores is a rule."""
    signs = "".join(line.split())
    return len(signs) >= 3 and not signs.strip("-*_")


def unknown_references(body: str) -> dict[str, int]:
    """The names of characters that are not known, and where each is first."""
    found: dict[str, int] = {}
    for reference in REFERENCE.finditer(body) if "&" in body else ():
        if reference[1] not in KNOWN_REFERENCES:
            found.setdefault(reference[1], reference.start())
    return found


def straight_signs(body: str) -> Optional[int]:
    """Where the first quote or dash is that Kramdown makes another."""
    if not any(sign in body for sign in ('"', "'", "--", "...")):
        return None
    if "<" in body or "](" in body:
        body = MARKUP.sub(blank, body)
    found = QUOTES.search(body)
    while found:
        end = body.find("\n", found.start())
        end = len(body) if end < 0 else end
        line = body[body.rfind("\n", 0, found.start()) + 1 : end]
        if not (tables.is_line_of_signs(line.lstrip(" >")) or is_rule(line) or DEFINITION.match(line)):
            return found.start()
        found = QUOTES.search(body, end)
    return None


def spans(text: str, begin: re.Pattern[str], end: re.Pattern[str]) -> Iterator[tuple[int, int]]:
    """Where there is code, from its begin to its end."""
    opened = begin.search(text)
    while opened:
        closed = end.search(text, opened.end())
        if not closed:
            return
        yield opened.start(), closed.end()
        opened = begin.search(text, closed.end())


def without(text: str, parts: Iterable[tuple[int, int]]) -> str:
    """The text without these parts, but with their line ends."""
    kept, at = [], 0
    for start, end in parts:
        kept += [text[at:start], "\n" * text.count("\n", start, end)]
        at = end
    return "".join([*kept, text[at:]]) if kept else text


def line_at(body: str, found: re.Match[str]) -> int:
    """The line of a match, counted from 0; of a match that begins with line ends the one after them."""
    return body.count("\n", 0, found.end() - len(found[0].lstrip("\n")))


def blank(found: re.Match[str]) -> str:
    """As many spaces, so that what is left has its place."""
    return " " * len(found[0]) if "\n" not in found[0] else NO_LINE_END.sub(" ", found[0])


def without_code(line: str) -> str:
    """A line with spaces in the place of its code between backticks: a run of them ends at the next run of that length."""
    if "``" not in line:
        return ONE_TICK.sub(blank, line)
    runs = [found.span() for found in TICKS.finditer(line)]
    places: dict[int, list[int]] = {}
    for at, (start, end) in enumerate(runs):
        places.setdefault(end - start, []).append(at)
    kept, at, done = [], 0, 0
    while at < len(runs):
        start, end = runs[at]
        same = places[end - start]
        later = bisect.bisect_right(same, at)
        if later < len(same):
            at = same[later]
            kept += [line[done:start], " " * (runs[at][1] - start)]
            done = runs[at][1]
        at += 1
    return "".join([*kept, line[done:]])


def without_templates(text: str) -> str:
    """The text with nothing but line ends in the place of outputs, tags, and what has its own ends around its code."""
    for begin, end in CODE_ENDS:
        text = without(text, spans(text, begin, end))
    return without(text, ((piece.start, piece.end) for piece in all_pieces(text)))


def prose(text: str) -> tuple[str, list[int]]:
    """The text with its lines in their places, and nothing in the place of code, outputs and tags; and the lines of fences with a language."""
    text = without_templates(text)
    if not text.startswith(("    ", "\t")) and not any(part in text for part in ("``", "~~~", "\n    ", "\n\t")):
        # The usual text: it has no lines of code, and goes through as a whole.
        return ONE_TICK.sub(blank, text), []
    lines, fences, fence = text.split("\n"), [], ""
    for at, line in enumerate(lines):
        if not fence and line[:1] not in FRONTS_OF_CODE and "`" not in line:
            continue
        opened = FENCE.match(line) if "```" in line or "~~~" in line else None
        if fence:
            fence = "" if opened and opened[1].startswith(fence) and not opened[2] else fence
            lines[at] = ""
        elif opened:
            fence = opened[1]
            lines[at] = ""
            if opened[2]:
                fences.append(at)
        elif line.startswith(("    ", "\t")) and not (at and lines[at - 1].strip()):
            lines[at] = ""
        elif "`" in line:
            lines[at] = without_code(line)
    return "\n".join(lines), fences
