"""The page that shows which pages an edit touches: for each edit a drawing, and a list."""
from __future__ import annotations

import html
from dataclasses import dataclass
from pathlib import Path
from string import Template

PAGE = Template((Path(__file__).parent / "why.html").read_text(encoding="utf-8"))
# What a key says of the page that read it: docs/PROFILE.md of sitebuild, "Why an item is rendered".
READS = {
    "new": "was not built before",
    "source": "the text of {}",
    "content": "the HTML of {}",
    "output": "the whole page {}",
    "paginator": "the posts on it",
    "site": "site.{}",
    "data": "site.data.{}",
    "layout": "the layout {}",
    "include": "the include {}",
    "file": "the file {}",
    "link": "the address of {}",
    "post": "the address of {}",
    "moment": "the present moment",
}
# More pages than these, or keys, are counted and not drawn.
MOST_PAGES = 12
MOST_KEYS = 12
# The drawing, in its own units.
ROW = 30
LEFT, MIDDLE, RIGHT, WIDTH = 0, 280, 620, 960
# The width of a sign of a text, and how many of them have room in each column.
SIGN = 8.45
LEFT_SIGNS, MIDDLE_SIGNS, RIGHT_SIGNS = 24, 31, 40
GAP = 8


@dataclass(frozen=True)
class Edit:
    what: str
    # The pages that were rendered, each with the first key that had another value.
    touched: list[tuple[str, str]]
    pages: int
    written: int
    fault: str = ""

    def told(self) -> str:
        """As a line for a terminal."""
        if self.fault:
            return f"{self.what}: {self.fault}"
        keys = sorted({reads(key) for _, key in self.touched})
        more = f" ({', '.join(keys[:4])}{', ..' if len(keys) > 4 else ''})" if keys else ""
        return f"{self.what}: {len(self.touched)} of {self.pages} pages{more}, {self.written} files written"


def reads(key: str) -> str:
    """What a page has read, in words."""
    word, _, rest = key.partition(" ")
    if word == "var":
        item, _, name = rest.rpartition(" ")
        return f"{name} of {item}"
    return READS.get(word, key).format(rest).rstrip(".")


def by_key(touched: list[tuple[str, str]]) -> dict[str, list[str]]:
    groups: dict[str, list[str]] = {}
    for page, key in touched:
        groups.setdefault(reads(key), []).append(page)
    return groups


def short(text: str, most: int) -> str:
    """A text that is too long, without its middle: its front says what it is, and its end which one."""
    front = most // 3
    return text if len(text) <= most else f"{text[:front]}…{text[front + 1 - most :]}"


def label(x: float, y: float, text: str, most: int, kind: str) -> str:
    return f'<text x="{x}" y="{y + 5:.0f}" class="{kind}"><title>{html.escape(text)}</title>{html.escape(short(text, most))}</text>'


def line(x: float, text: str, most: int, y: float, to_x: float, to_y: float) -> str:
    """From the end of a text that begins at x to the front of another."""
    begin, end = x + len(short(text, most)) * SIGN + GAP, to_x - GAP
    bend = max(begin, end - 70)
    middle = (bend + end) / 2
    return f'<path d="M{begin:.0f} {y:.0f}H{bend:.0f}C{middle:.0f} {y:.0f} {middle:.0f} {to_y:.0f} {end:.0f} {to_y:.0f}"/>'


def shown_pages(pages: list[str]) -> list[str]:
    if len(pages) <= MOST_PAGES:
        return pages
    return [*pages[: MOST_PAGES - 1], f"and {len(pages) - MOST_PAGES + 1} more"]


def drawing(name: str, groups: dict[str, list[str]]) -> str:
    """The file on the left, what is read of it in the middle, and the pages that read it on the right."""
    rows, lines, texts = 0, [], []
    shown = list(groups.items())[:MOST_KEYS]
    height = ROW * sum(len(shown_pages(pages)) for _, pages in shown)
    for key, pages in shown:
        names = shown_pages(pages)
        middle = ROW * (rows + len(names) / 2)
        lines.append(line(LEFT, name, LEFT_SIGNS, height / 2, MIDDLE, middle))
        texts.append(label(MIDDLE, middle, key, MIDDLE_SIGNS, "key"))
        for page in names:
            y = ROW * (rows + 0.5)
            lines.append(line(MIDDLE, key, MIDDLE_SIGNS, middle, RIGHT, y))
            texts.append(label(RIGHT, y, page, RIGHT_SIGNS, "page"))
            rows += 1
    texts.append(label(LEFT, height / 2, name, LEFT_SIGNS, "file"))
    return f'<svg viewBox="0 0 {WIDTH} {height}" width="{WIDTH}" height="{height}" role="img">{"".join(lines)}{"".join(texts)}</svg>'


def section(name: str, edit: Edit) -> str:
    parts = [f"<section><h2>{html.escape(edit.what)}</h2>"]
    if edit.fault:
        return "".join([*parts, f"<p>{html.escape(edit.fault)}</p></section>"])
    count = len(edit.touched)
    parts.append(f"<p><strong>{count} of {edit.pages} pages</strong> rebuilt, {edit.written} files written.</p>")
    groups = by_key(edit.touched)
    if groups:
        parts.append(f'<div class="wide">{drawing(name, groups)}</div><details><summary>As a list</summary><ul>')
        parts += [f"<li>{html.escape(page)}: {html.escape(reads(key))}</li>" for page, key in edit.touched]
        parts.append("</ul></details>")
    return "".join([*parts, "</section>"])


def page(name: str, edits: list[Edit]) -> str:
    """The whole page."""
    body = "".join(section(name, edit) for edit in edits) or "<p>Nothing of this file can be edited as a trial, or nothing was built yet.</p>"
    return PAGE.substitute(name=html.escape(name), body=body)
