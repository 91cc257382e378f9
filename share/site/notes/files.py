"""Notes of files by their names and their front matter."""
from __future__ import annotations

import csv
import datetime
import io
import os
import re
from typing import Optional

from adopting.kept_back import names
from adopting.scopes import path_of
from adopting.zones import read_date, stands_bare
from configuration import CONFIG, Hash, mapping
from notes.site import Item, Notes, Site, read_part
from session import MOST_BYTES
from site_files import line_of

# A field may be as long as its file.
csv.field_size_limit(MOST_BYTES)

DATE = re.compile(r"(\d{4})-(\d{1,2})-(\d{1,2})-")
# A key of YAML that is a number.
NUMBER = re.compile(r"^[ \t]*(?:- )?-?\d+[ \t]*:(?=\s|$)|[{,][ \t]*-?\d+:[ \t]", re.M)
# A number that Ruby writes otherwise than it is written.
ODD_NUMBER = re.compile(r"^[\w-]+[ \t]*:[ \t]*([+-]?(?:0x[0-9A-Fa-f]+|0[0-7]+|\d+\.\d*0))[ \t]*(?:#.*)?\r?$", re.M)
MOMENT = re.compile(r"(\d{4}-\d\d-\d\d)(?:[ T](\d\d):(\d\d)(?::\d\d)?)?\s*([+-]\d\d:?\d\d)?$")
UTC = ("UTC", "Etc/UTC", "Z", "+00:00", "-00:00", "+0000", "-0000")
PAGES_OF_HTML = (".html", ".htm", ".xhtml")


def add(notes: Notes, site: Site) -> None:
    for path in site.links:
        notes.add(path, 0, "links are passed over (Jekyll follows them)", "put the file itself there")
    items = {item.path: item for item in site.items}
    for path in site.looked_at:
        with notes.of(path):
            add_name(notes, site, path, items.get(path))
    layouts = {os.path.splitext(path)[0][len("_layouts/") :] for path in site.files if path.startswith("_layouts/")}
    for entry in site.defaults():
        layout = entry["values"].get("layout")
        add_layout(notes, CONFIG, site.settings.line_with("defaults", f"{layout}"), layout, layouts)
    for item in site.items:
        with notes.of(item.path):
            add_layout(notes, item.path, item.line_of_key("layout"), item.values.get("layout"), layouts)
            if not item.path.startswith("_layouts/"):
                add_item(notes, site, item)
    with notes.of("."):
        add_undated(notes, site)


def add_layout(notes: Notes, path: str, line: int, layout: object, layouts: set[str]) -> None:
    if isinstance(layout, str) and layout not in layouts and layout != "none":
        notes.add(path, line, f"there is no layout {layout}, so the page comes out without it", "put it into _layouts, or mend its name")


def add_name(notes: Notes, site: Site, path: str, item: Optional[Item]) -> None:
    """What a file's name or its first bytes mean otherwise. It is an item if it has front matter."""
    folders, name = path.split("/")[:-1], path.rpartition("/")[2]
    ending, has_front_matter = os.path.splitext(name)[1], item is not None
    if "_posts" in folders:
        add_post_name(notes, path, name, has_front_matter)
    if "_drafts" in folders[1:]:
        notes.add(path, 0, "drafts are read in the folder _drafts at the top alone", "move it there")
    if folders[:1] == ["_drafts"] and DATE.match(name):
        notes.add(path, 0, "the slug and the title of this draft begin with its date", "take the date out of its name")
    collection = folders[0][1:] if folders and folders[0].startswith("_") else ""
    if collection in site.collections() and any(part[:1] in "_.#~" for part in folders[1:]) and not site.is_included(path):
        notes.add(path, 0, "nothing comes of a document in such a folder", "write the file in include, or rename the folder: `site adopt` does the first")
    if path.startswith("_data/") and re.search(r"[^A-Za-z0-9_./-]", path):
        notes.add(path, 0, "the key of this data file is its name as it is (in Jekyll its spaces are _)", "call it with letters, digits and _")
    if path.startswith("_data/") and ending in (".csv", ".tsv"):
        add_empty_field(notes, path, read_part(site.folder, path) or "", "\t" if ending == ".tsv" else ",")
    if has_front_matter and ending.lower() != ending and site.is_markdown(path[: -len(ending)] + ending.lower()):
        notes.add(path, 0, f"{ending} in capitals is no ending of Markdown, so it is not converted", "write it small")
    if has_front_matter and ending in (".scss", ".sass", ".coffee"):
        add_sass(notes, site, path)
    if has_front_matter and re.search(r"[^A-Za-z0-9._/-]", path):
        notes.add(path, 0, "its address has the signs of its name as they are (in Jekyll escaped)", "call it with letters, digits and -")
    if item and item.text.startswith("\ufeff"):
        notes.add(path, 1, "it begins with a byte-order mark: here its front matter is read, there it is copied", "save it without the mark")


def add_empty_field(notes: Notes, path: str, text: str, separator: str) -> None:
    """What an empty field of a table means otherwise. Python's reader takes no zero byte before 3.11, and no CR alone."""
    text = text.replace("\r\n", "\n").replace("\r", "\n").replace("\0", " ")
    for number, record in enumerate(csv.reader(io.StringIO(text), delimiter=separator), 1):
        if "" in record:
            notes.add(path, number, "an empty field is an empty text (in Jekyll nil)", 'test it with == ""')
            return


def add_post_name(notes: Notes, path: str, name: str, has_front_matter: bool) -> None:
    date = DATE.match(name)
    if not date:
        return
    if not re.match(r"\d{4}-\d\d-\d\d-", name):
        notes.add(path, 0, "no post comes of a month or a day with one digit", "write two digits")
        return
    try:
        datetime.date(int(date[1]), int(date[2]), int(date[3]))
    except ValueError:
        notes.add(path, 0, "no post comes of a day that is none", "mend the date in its name")
        return
    if not has_front_matter:
        notes.add(path, 0, "no post comes of a file without front matter", "put two lines --- at its front")


def add_sass(notes: Notes, site: Site, path: str) -> None:
    if path.endswith(".coffee"):
        notes.add(path, 0, "CoffeeScript is not compiled, and the file comes out as it is", "keep the compiled script in the site")
    elif not any(part.startswith("_") for part in path.split("/")) and path not in site.list_of("exclude"):
        notes.add(path, 0, "Sass is not compiled, and the file comes out as it is", "`site adopt` has sassc make its CSS")


def add_item(notes: Notes, site: Site, item: Item) -> None:
    """What the front matter of an item means otherwise."""
    values = item.values
    is_post = "_posts" in item.path.split("/") or item.path.startswith("_drafts/")
    is_document = is_post or item.path.partition("/")[0][1:] in site.collections()
    number = NUMBER.search(item.text[: item.body])
    if number:
        notes.add(item.path, line_of(item.text, number.start()), "a key that is a number is a text (x[1] is nil)", 'ask for it as x["1"]')
    add_categories(notes, site, item, is_post, is_document)
    if "published" in values and values["published"] is None:
        notes.add(item.path, item.line_of_key("published"), "published without a value is true (in Jekyll false)", "write published: false: `site adopt` does that")
    if values.get("excerpt_separator") == "":
        what = "an empty separator gives the first paragraph as excerpt (in Jekyll nothing)"
        notes.add(item.path, item.line_of_key("excerpt_separator"), what, 'write excerpt: ""')
    if is_post and values.get("excerpt") is False:
        what = "excerpt: false gives the text false (in Jekyll the first paragraph)"
        notes.add(item.path, item.line_of_key("excerpt"), what, "take it out, or write the excerpt")
    if values.get("render_with_liquid") is False:
        notes.add(item.path, item.line_of_key("render_with_liquid"), "the text is a template all the same", "put {% raw %} around what is none")
    hidden = any(entry["values"].get("published") is False and covers(entry, item.path) for entry in site.defaults())
    if hidden and not is_document and "published" not in values:
        what = "published: false of defaults leaves this page out (in Jekyll it comes out all the same)"
        notes.add(item.path, 1, what, "write published: true into the page, or another scope")
    add_permalink(notes, site, item)
    add_date(notes, site, item, is_document)
    if is_document:
        add_moment(notes, site, item)
    if "jekyll-redirect-from" in site.plugins():
        add_redirects(notes, site, item)
    for entry in site.defaults():
        for key, value in entry["values"].items():
            line = item.line_of_key(key)
            if isinstance(value, dict) and isinstance(values.get(key), dict):
                notes.add(item.path, line, f"the hash {key} takes the place of that of defaults, and nothing is merged", "write the hash whole")
            elif value is not None and values.get(key, value) is None and key != "published":
                notes.add(item.path, line, f"{key} has no value, and hides that of defaults", "take the key out")
    odd = ODD_NUMBER.search(item.text[: item.body])
    if odd:
        notes.add(item.path, line_of(item.text, odd.start()), f"{odd[1]} is a text, and comes out as it is written", "write a whole number, or put it in quotes")
    if is_document and "title" not in values and not item.path.isascii():
        notes.add(item.path, 0, "its title is made of its name, where ASCII letters alone become capitals", "write title")


def covers(entry: Hash, path: str) -> bool:
    """Whether an entry of defaults is for this page."""
    scope = mapping(entry.get("scope"))
    named = path_of(scope)
    return scope.get("type") in (None, "pages") and (not named or names(named, path))


def add_categories(notes: Notes, site: Site, item: Item, is_post: bool, is_document: bool) -> None:
    values = item.values
    from_defaults = any("category" in entry["values"] or "categories" in entry["values"] for entry in site.defaults())
    if is_post and "category" in values and ("categories" in values or from_defaults):
        notes.add(item.path, item.line_of_key("category"), "category comes before categories in the address (in Jekyll after them)", "write all of them in categories")
    elif is_document and not is_post and "category" in values:
        notes.add(item.path, item.line_of_key("category"), "of a document that is no post category is not put to its categories", "write categories")
    for key in ("tags", "categories"):
        given = values.get(key)
        words = given.split() if isinstance(given, str) else [str(one) for one in given] if isinstance(given, list) else []
        if key == "tags" and len(set(words)) < len(words):
            notes.add(item.path, item.line_of_key(key), "a tag that is written twice counts once (in Jekyll twice)", "write it once")
        small = [word.lower() for word in words]
        if key == "categories" and is_post and len(set(small)) < len(set(words)):
            notes.add(item.path, item.line_of_key(key), "categories that differ in capitals alone are both in the address (in Jekyll one is)", "write one of them")


def add_permalink(notes: Notes, site: Site, item: Item) -> None:
    permalink = item.values.get("permalink")
    ending = os.path.splitext(item.path)[1]
    if not isinstance(permalink, str) or not (ending in PAGES_OF_HTML or site.is_markdown(item.path)):
        return
    own = re.search(r"(\.[A-Za-z0-9]+)$", permalink)
    out = ".html" if site.is_markdown(item.path) else ending
    if own and own[1] != out:
        what = f"it is written as {permalink.lstrip('/')}{out}, since its own ending is {out}"
        notes.add(item.path, item.line_of_key("permalink"), what, f"give the file the ending {own[1]}")


def add_date(notes: Notes, site: Site, item: Item, is_document: bool) -> None:
    moment = MOMENT.match(str(item.values.get("date", "")).strip())
    if not is_document or not moment:
        return
    try:
        day = datetime.date.fromisoformat(moment[1])
    except ValueError:
        # It is no day, or of the year 0.
        return
    if moment[4] and moment[2] and not isinstance(site.config.get("timezone"), str):
        sign = -1 if moment[4][0] == "-" else 1
        offset = sign * (int(moment[4][1:3]) * 60 + int(moment[4][-2:]))
        minutes = int(moment[2]) * 60 + int(moment[3]) - offset
        if not 0 <= minutes < 24 * 60:
            what = "its day is that of UTC, since there is no timezone (in Jekyll that of the machine)"
            notes.add(item.path, item.line_of_key("date"), what, f'write timezone: "{moment[4][:3]}:{moment[4][-2:]}" in _config.yml')
    tomorrow = datetime.date.today() + datetime.timedelta(days=1)
    if day > tomorrow and site.config.get("future") is not True and not {"_posts", "_drafts"} & set(item.path.split("/")):
        what = "a document with a later date is not there at all (in Jekyll its collection lists it)"
        notes.add(item.path, item.line_of_key("date"), what, "write future: true, or no date")


def add_moment(notes: Notes, site: Site, item: Item) -> None:
    """A date that is of UTC in Jekyll, and of the site's zone here."""
    zone, date = site.config.get("timezone"), str(item.values.get("date", ""))
    if not isinstance(zone, str) or zone in UTC:
        return
    line = item.line_of_key("date")
    found = read_date(date, not stands_bare(date, item.text[: item.body].split("\n")[line - 1]))
    if found and found.is_moment and not found.offset:
        what = "a time with seconds and without an offset is of the site's zone (in Jekyll of UTC)"
        notes.add(item.path, line, what, "write +00:00 after it, or put it in quotes for the site's zone")


def add_redirects(notes: Notes, site: Site, item: Item) -> None:
    done = {str(one.values.get("permalink")) for one in site.items if one.path.startswith("redirects/")} if "redirect_from" in item.values else set()
    old = item.values.get("redirect_from")
    for address in old if isinstance(old, list) else [old] if old else []:
        if "/" + str(address).lstrip("/") not in done:
            notes.add(item.path, item.line_of_key("redirect_from"), "no page is made at its old addresses", "`site adopt` makes one")
    if item.values.get("redirect_to") and "redirect" not in str(item.values.get("layout")):
        notes.add(item.path, item.line_of_key("redirect_to"), "it does not lead elsewhere", "`site adopt` gives it the layout that does")


def add_undated(notes: Notes, site: Site) -> None:
    """A collection of which some documents have a date and some have none."""
    for name in site.collections():
        inner = [item for item in site.items if item.path.startswith(f"_{name}/") and name != "posts"]
        dated = [item for item in inner if item.values.get("date") or DATE.match(item.path.rpartition("/")[2])]
        if dated and len(dated) < len(inner):
            undated = next(item for item in inner if item not in dated)
            what = "a document without a date comes after those that have one (in Jekyll it has the moment of the build)"
            notes.add(undated.path, 0, what, f"give all documents of {name} a date, or none")
