"""What the program reads otherwise than Jekyll without a word: one line for each kind, with its first place."""
from __future__ import annotations

from dataclasses import dataclass, field
from pathlib import Path
from typing import Callable, Optional

from adopting.hidden import hidden_texts
from adopting.settings import is_kramdown
from notes import files, markdown, settings, templates
from notes.first_faults import further_faults
from notes.site import Notes, Site, read_site
from site_files import TEMPLATES, first_fault, line_of, run

NOT_KNOWN = "what else there is to say of this site is not known"


@dataclass
class Said:
    """What is found of a site, up to now."""

    notes: Notes = field(default_factory=Notes)
    # The first faults of further files.
    faults: list[str] = field(default_factory=list)
    # Why this is not all.
    short: list[str] = field(default_factory=list)

    def lines(self) -> list[str]:
        return [*self.faults, *self.notes.lines(), *self.short]


def silent_notes(folder: Path, program: str) -> list[str]:
    """What a check does not tell: the first fault of each further file, and what is read otherwise without a word."""
    said = Said()
    look(said, folder, program, lambda: first_fault(run(program, folder, "check")) is not None)
    return said.lines()


def look(said: Said, folder: Path, program: str, has_fault: Callable[[], bool]) -> None:
    """Adds what there is to say of a site. Whether it has a fault is asked at last. Whatever else is met is a line."""
    try:
        add_differences(said.notes, folder, program)
    except Exception as error:
        said.short.append(f"{NOT_KNOWN}: {reason(error)}")
    try:
        if has_fault():
            said.faults += further_faults(folder, program)
    except Exception as error:
        said.short.append(f"its further faults are not known: {reason(error)}")


def reason(error: Exception) -> str:
    """What was met, for a line."""
    return str(error) or type(error).__name__


def differences(folder: Path, program: str) -> list[str]:
    """The lines for a site: `FILE:LINE: what is read otherwise; remedy`. Raises NotRead and OSError where the site cannot be read."""
    notes = Notes()
    add_differences(notes, folder, program)
    return notes.lines()


def add_differences(notes: Notes, folder: Path, program: str) -> None:
    """Adds what is read otherwise. Raises NotRead and OSError where the site cannot be read."""
    site = read_site(folder, program)
    # What others are not to see comes first.
    add_hidden(notes, site)
    settings.add(notes, site)
    files.add(notes, site)
    ours = {path.read_text(encoding="utf-8") for path in TEMPLATES.iterdir()}
    for item in site.items:
        if item.text[item.body :] not in ours:
            with notes.of(item.path):
                add_text(notes, site, item.path, item.text, item.body)
    for path, text in site.plain.items():
        if text not in ours:
            with notes.of(path):
                templates.add(notes, site, path, text, 0)
    with notes.of("."):
        templates.add_counters(notes, site)


def add_hidden(notes: Notes, site: Site) -> None:
    """Text that Kramdown hides, and that is shown."""
    for item in site.items if is_kramdown(site.config) else []:
        if site.is_markdown(item.path):
            with notes.of(item.path):
                for one in hidden_texts(item.text, item.body)[:1]:
                    what = "hidden text ({::comment}) is shown (in Jekyll it is in a comment of HTML)"
                    notes.add(item.path, line_of(item.text, one.start), what, "write {% comment %} and {% endcomment %}: `site adopt` does that where no tags are in it")


def add_text(notes: Notes, site: Site, path: str, text: str, start: int) -> None:
    """What the text of a page means otherwise."""
    templates.add(notes, site, path, text, start)
    if site.is_markdown(path):
        markdown.add(notes, path, text, start)
