"""What the plugin jekyll-archives makes of a site in Jekyll, and which of it the program makes by `make_archives`."""
from __future__ import annotations

import re
from dataclasses import dataclass, field
from typing import Any, Optional

from adopting.tags import pieces
from configuration import Hash, listed, mapping
from site_files import Lines, front_matter

PLUGIN = "jekyll-archives"
# The words of `make_archives`, each with the plugin's name for the kind of page.
WORDS = {"tags": "tag", "categories": "category"}
# What the plugin makes besides, with what its pages are of.
DAYS = {"year": "years", "month": "months", "day": "days"}
TYPE = re.compile(r"(?<![\w.\"'-])page\.type\b")


@dataclass(frozen=True)
class Difference:
    """What the plugin makes otherwise: the part of its settings that says so, what it is, and the remedy."""

    part: str
    what: str
    remedy: str


@dataclass
class Plan:
    """The words that have archives at the plugin's usual addresses, their layout, and what is left of the plugin."""

    words: list[str] = field(default_factory=list)
    layout: str = ""
    differences: list[Difference] = field(default_factory=list)

    def differs(self, part: str, what: str, remedy: str) -> None:
        self.differences.append(Difference(part, what, remedy))


def plan_of(config: Hash) -> Plan:
    """What comes of the settings of the plugin. Nothing does where they are no mapping, or name nothing."""
    settings, plan = mapping(config.get(PLUGIN)), Plan()
    enabled = settings.get("enabled")
    kinds = [*WORDS, *DAYS] if enabled is True or enabled == "all" else [one for one in listed(enabled) if isinstance(one, str)]
    add_days(plan, [name for kind, name in DAYS.items() if kind in kinds], enabled)
    add_words(plan, settings, [word for word in WORDS if word in kinds], listed(config.get("make_archives")))
    slugs = settings.get("slug_mode")
    if plan.words and slugs not in (None, "default"):
        plan.differs("slug_mode", f"slugs of archives are those of the filter slugify (in Jekyll by the mode {slugs})", "look for links to them")
    return plan


def add_days(plan: Plan, days: list[str], enabled: object) -> None:
    if days:
        part = next(kind for kind, name in DAYS.items() if name == days[0]) if isinstance(enabled, list) else "enabled"
        plan.differs(part, f"no archives of {in_words(days)} are made", "write a page for each by hand, or do without them")


def add_words(plan: Plan, settings: Hash, words: list[str], made: list[Any]) -> None:
    addresses, layouts = mapping(settings.get("permalinks")), mapping(settings.get("layouts"))
    for word in words:
        kind = WORDS[word]
        given = addresses.get(kind) or f"/{kind}/:name/"
        if "/" + str(given).replace(":type", kind).lstrip("/") != f"/{kind}/:name/":
            remedy = "change the links to them" if word in made else f"write {word} into make_archives, and change the links to them"
            plan.differs(str(given), f"archives of {word} have the addresses /{kind}/:name/ alone (in Jekyll {given})", remedy)
            continue
        layout = str(layouts.get(kind) or settings.get("layout") or "archive")
        if plan.words and layout != plan.layout:
            what = f"all archives have the layout {plan.layout} (in Jekyll those of {word} {layout})"
            plan.differs(layout, what, f'ask there for page.kind, which is "{kind}" for them')
        plan.layout = plan.layout or layout
        plan.words.append(word)


def in_words(names: list[str]) -> str:
    """Names as a sentence has them: `a, b and c`."""
    return " and ".join([", ".join(names[:-1]), names[-1]]) if len(names) > 1 else names[0]


def type_in(text: str) -> Optional[int]:
    """The first line of a template that asks for the plugin's `page.type`."""
    match, lines = front_matter(text), Lines(text)
    return next((lines.of(piece.start) for piece in pieces(text, match.end() if match else 0) if TYPE.search(piece.text)), None)


def by_kind(text: str) -> str:
    """A template that asks for `page.kind` in place of the plugin's `page.type`."""
    match = front_matter(text)
    parts, at = [], 0
    for piece in pieces(text, match.end() if match else 0):
        parts += [text[at : piece.start], TYPE.sub("page.kind", piece.text)]
        at = piece.end
    return "".join([*parts, text[at:]])
