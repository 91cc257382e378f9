"""Dates of items: in a named zone, which is one offset now, they are written so that address and shown clock stay."""
from __future__ import annotations

from typing import Optional

from adopting.adoption import Adoption
from adopting.files import with_front_matter, yaml_of
from adopting.settings import collections_of, kind_of
from adopting.zones import Zone, mended, stands_bare
from configuration import Hash, Settings, mapping
from site_files import head_of, line_of, read_values, write_text


def mend_dates(adoption: Adoption, config: Hash) -> None:
    """Writes each date that would show another clock as that of the zone shows it, without an offset."""
    zone = adoption.zone
    if zone is None:
        return
    items = {path: text for path, text in with_front_matter(adoption).items() if not path.startswith("_layouts/") and "date" in head_of(text)[1]}
    values = read_values(adoption.program, {path: yaml_of(text) for path, text in items.items()}).of
    collections, written = collections_of(config), []
    for path, value in values.items():
        date = mapping(value).get("date")
        place = mend_date(adoption, path, items[path], date, zone, kind_of(path, collections) is not None) if isinstance(date, str) else None
        written += [place] if place else []
    if written:
        more = f" (and {len(written) - 1} more)" if len(written) > 1 else ""
        adoption.done(written[0], f"date is written as the clock of {zone.name} shows it now, without an offset{more}")


def mend_date(adoption: Adoption, path: str, text: str, date: str, zone: Zone, is_document: bool) -> Optional[str]:
    """Mends the date of an item; the place where one was written."""
    match = head_of(text)
    settings = Settings(match[1])
    place = settings.place("date")
    source = "\n".join(settings.lines[place[0] : place[1]] if place else settings.lines)
    is_quoted = " ".join(source.split()).partition(":")[2].lstrip()[:1] in "'\"|>" if place else not stands_bare(date, source)
    new = mended(date, is_quoted, zone, is_document)
    if new is None:
        return None
    if place is None:
        adoption.left(f"{path}:1", f'its date would show another clock than that of {zone.name}; write date: "{new}"')
        return None
    # What goes over several lines is written anew.
    is_short = "\n" not in source and date in source
    line = source.replace(date, new if is_quoted else f'"{new}"', 1) if is_short else f'{settings.indent}date: "{new}"'
    settings.lines[place[0] : place[1]] = [line]
    write_text(adoption.folder / path, text[: match.start(1)] + settings.text() + text[match.end(1) :])
    return f"{path}:{line_of(text, match.start(1)) + place[0]}"
