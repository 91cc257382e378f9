"""Notes of the feed and the sitemap that the program makes: the host that their addresses want, and what else is at their paths."""
from __future__ import annotations

from adopting.archives import in_words
from adopting.settings import made_by_keys
from configuration import CONFIG, mapping
from notes.site import Item, Notes, Site, is_left_out, is_page


def add(notes: Notes, site: Site) -> None:
    made = made_by_keys(site.config)
    if made and not site.config.get("url"):
        line = site.settings.line(next(iter(made.values())))
        notes.add(CONFIG, line, f"the addresses in {in_words(list(made))} have no host, and their readers want one", "write url: https://, and the host")
    for path, key in made.items():
        add_others(notes, site, path, key)


def add_others(notes: Notes, site: Site, path: str, key: str) -> None:
    """Pages that the generated one replaces, and what comes out in its place."""
    if path in site.looked_at and path not in [item.path for item in site.items]:
        notes.add(path, 0, f"it comes out in place of what {key} makes", f"take it away, or {key} out")
    for item in site.items:
        if not has_path(item, path) or is_left_out(site, item):
            continue
        line = item.line_of_key("permalink")
        if is_page(site, item):
            notes.add(item.path, line, f"what {key} makes comes out in its place: both have the path {path}", f"take {key} out, or take this page away")
        elif has_output(site, item):
            notes.add(item.path, line, f"it comes out in place of what {key} makes", f"take {key} out, or give it another permalink")


def has_path(item: Item, path: str) -> bool:
    """Whether a page has this path by its permalink or its name, or a document by its permalink. What ends otherwise is written with its own ending."""
    given = item.values.get("permalink")
    address = given if isinstance(given, str) else item.path
    return address.lstrip("/") == path and item.path.endswith(".xml")


def has_output(site: Site, item: Item) -> bool:
    """Whether a document comes out: posts do, and those of a collection with output."""
    name = item.path.partition("/")[0][1:]
    collection = mapping(site.config.get("collections")).get(name)
    return name != "layouts" and (name not in site.collections() or mapping(collection).get("output") is True or name == "posts")
