"""Notes of archives: what is left of the plugin that makes them in Jekyll, pages at their addresses, and names that are too long for them."""
from __future__ import annotations

import re
import unicodedata
from typing import Iterator

from adopting.archives import PLUGIN, WORDS, plan_of, type_in
from adopting.settings import texts
from configuration import CONFIG, Hash
from notes.site import Item, Notes, Site, is_left_out, is_page, is_post
from session import MOST_PATH


def add(notes: Notes, site: Site) -> None:
    if PLUGIN in site.plugins():
        add_plugin(notes, site)
    words = [word for word in WORDS if word in site.list_of("make_archives")]
    add_hidden(notes, site, words)
    add_long(notes, site, words)


def add_plugin(notes: Notes, site: Site) -> None:
    plan = plan_of(site.config)
    for one in plan.differences:
        notes.add(CONFIG, site.settings.line_with(PLUGIN, one.part), one.what, one.remedy)
    if plan.words and "make_archives" in site.config:
        layouts = [(item.path, item.text) for item in site.items if item.path.startswith("_layouts/")]
        for path, text in [*layouts, *site.plain.items()]:
            line = type_in(text)
            if line:
                notes.add(path, line, "page.type of an archive is nil (in Jekyll tag or category)", "ask for page.kind")


def add_hidden(notes: Notes, site: Site, words: list[str]) -> None:
    """Pages that do not come out, since an archive does at their address."""
    names = {(word, name) for word in words for item in site.items for name in names_of(site, item, word)}
    taken = {f"/{WORDS[word]}/{slug(name)}/" for word, name in names}
    for item in site.items if taken else []:
        if address_of(item) in taken and is_page(site, item):
            what = "an archive comes out in its place: both have one address"
            notes.add(item.path, item.line_of_key("permalink"), what, "give it another permalink, or the posts another tag or category")


def add_long(notes: Notes, site: Site, words: list[str]) -> None:
    """Tags and categories that make F6: it names no post."""
    for word in words:
        most = MOST_PATH - len(f"{WORDS[word]}//index.html")
        for item in site.items:
            # A slug has no more bytes than its name.
            if any(bytes_of(name) > most and bytes_of(slug(name)) > most for name in names_of(site, item, word)):
                line = item.line_of_key(word if word in item.values else WORDS[word])
                notes.add(item.path, line, f"a {WORDS[word]} is too long: the path of its archive has more than {MOST_PATH:,} bytes", f"shorten its slug to {most:,}")


def address_of(item: Item) -> str:
    """The address that a page has by its permalink, or as the index of a folder; of others nothing is said."""
    given = item.values.get("permalink")
    if isinstance(given, str):
        return "/" + re.sub(r"(?<=/)index\.html$", "", given.lstrip("/"))
    folder, _, name = item.path.rpartition("/")
    return f"/{folder}/" if re.fullmatch(r"index\.(html|md|markdown)", name) else ""


def names_of(site: Site, item: Item, word: str) -> Iterator[str]:
    """The tags of a post, or its categories."""
    if not is_post(item) or is_left_out(site, item):
        return
    if word == "categories" and "/_posts/" in item.path:
        yield from item.path.partition("/_posts/")[0].split("/")
    values: Hash = {}
    for entry in site.defaults():
        values.update(entry["values"])
    values.update(item.values)
    # Of `tag` and `category` a text is one name.
    yield from given_names(values.get(WORDS[word]), in_one=True)
    yield from given_names(values.get(word), in_one=False)


def given_names(given: object, in_one: bool) -> list[str]:
    if isinstance(given, list):
        return texts(given)
    if given is None:
        return []
    return [str(given)] if in_one else str(given).split()


def slug(name: str) -> str:
    """A name as the filter `slugify` makes it."""
    small = "".join(sign.lower() if sign.isascii() else sign for sign in name)
    return re.sub("-+", "-", "".join(sign if is_kept(sign) else "-" for sign in small)).strip("-")


def is_kept(sign: str) -> bool:
    """Whether it is a letter, a mark or a digit."""
    kind = unicodedata.category(sign)
    return kind[0] in "LM" or kind == "Nd"


def bytes_of(text: str) -> int:
    return len(text.encode(errors="replace"))
