"""A site as the notes look at it, and the lines that they say."""
from __future__ import annotations

import os
import re
from contextlib import contextmanager
from dataclasses import dataclass, field
from pathlib import Path
from typing import Any, Iterator, Optional

from adopting.kept_back import Program
from adopting.settings import collections_of, is_markdown, plugins_of, texts
from configuration import CONFIG, Hash, Settings, listed, mapping
from session import MOST_BYTES
from site_files import front_matter, line_of, list_files, open_file, read_marked, read_values, text_of

DECIMAL = re.compile(r"^([\w-]+)[ \t]*:[ \t]*-?\d+\.\d+[ \t]*(?:#.*)?\r?$", re.M)


@dataclass
class Notes:
    """The lines, by kind. Of each kind the first place is named, and the other files are counted."""

    first: dict[str, str] = field(default_factory=dict)
    files: dict[str, set[str]] = field(default_factory=dict)

    def add(self, path: str, line: int, what: str, remedy: str) -> None:
        said = f"{what}; {remedy}"
        # What is in `first` is said, also when the time is over between these two.
        self.files.setdefault(said, set()).add(path)
        self.first.setdefault(said, f"{path}:{line}" if line else path)

    @contextmanager
    def of(self, path: str) -> Iterator[None]:
        """A time in which notes of a file are added. Whatever is met there ends these notes alone, and is told."""
        try:
            yield
        except Exception as error:
            self.add(path, 0, f"what else it means otherwise is not known ({type(error).__name__}: {error})", "report it, with this file")

    def lines(self) -> list[str]:
        told = []
        for said, place in self.first.items():
            more = len(self.files[said]) - 1
            told.append(f"{place}: {said}" + (f" (and in {more} more file{'s' if more > 1 else ''})" if more else ""))
        return told


@dataclass
class Item:
    """A page, a post, a document or a layout: a file with front matter."""

    path: str
    text: str
    values: Hash
    body: int

    def line_of_key(self, key: str) -> int:
        """The line of a key of the front matter; 1 where it has no line of its own."""
        found = re.search(rf"^{re.escape(key)}[ \t]*:", self.text[: self.body], re.M)
        return line_of(self.text, found.start()) if found else 1


@dataclass
class Site:
    """A site as the notes look at it."""

    folder: Path
    files: list[str]
    # Those of them that are left out by nothing.
    looked_at: list[str]
    links: list[str]
    config: Hash
    settings: Settings
    items: list[Item] = field(default_factory=list)
    # Texts of the includes, and of layouts without front matter.
    plain: dict[str, str] = field(default_factory=dict)
    found_decimals: Optional[set[str]] = None
    found_plugins: Optional[list[str]] = None

    def list_of(self, key: str) -> list[Any]:
        return listed(self.config.get(key))

    def is_included(self, path: str) -> bool:
        """Whether `include` brings a file in."""
        return Program(texts(self.config.get("include")), []).is_included(path)

    def collections(self) -> list[str]:
        return collections_of(self.config)

    def plugins(self) -> list[str]:
        if self.found_plugins is None:
            self.found_plugins = plugins_of(self.config, self.folder)
        return self.found_plugins

    def defaults(self) -> list[Hash]:
        return [one for one in self.list_of("defaults") if isinstance(one, dict) and isinstance(one.get("values"), dict)]

    def has_strict_filters(self) -> bool:
        return mapping(self.config.get("liquid")).get("strict_filters") is True

    def decimals(self) -> set[str]:
        """The keys of front matter that have a decimal somewhere."""
        if self.found_decimals is None:
            self.found_decimals = {key for item in self.items for key in DECIMAL.findall(item.text[: item.body])}
        return self.found_decimals

    def copied_of_collections(self) -> bool:
        """Whether a collection has files without front matter."""
        items = {item.path for item in self.items}
        folders = tuple(f"_{name}/" for name in self.collections() if name != "posts")
        return any(path.startswith(folders) and path not in items for path in self.looked_at) if folders else False

    def is_markdown(self, path: str) -> bool:
        return is_markdown(self.config, path)


def is_page(site: Site, item: Item) -> bool:
    folder = item.path.partition("/")[0]
    return not is_post(item) and folder != "_layouts" and not (folder[:1] == "_" and folder[1:] in site.collections())


def is_post(item: Item) -> bool:
    return "_posts" in item.path.split("/") or item.path.startswith("_drafts/")


def is_left_out(site: Site, item: Item) -> bool:
    """Whether it is not published, or a draft that is not built."""
    is_draft = item.path.startswith("_drafts/") and site.config.get("show_drafts") is not True
    return is_draft or item.values.get("published") is False


def read_site(folder: Path, program: str) -> Site:
    """Reads all that the notes look at. What has a fault is passed over: the program tells it. So is what has gone meanwhile.

    Raises NotRead when the program does not read YAML.
    """
    found = list_files(folder)
    text = (read_part(folder, CONFIG) if CONFIG in found.files else None) or ""
    config = read_values(program, {CONFIG: text}).of.get(CONFIG)
    site = Site(folder, found.files, [], found.links, mapping(config), Settings(text))
    begun: dict[str, str] = {}
    rules = Program(texts(site.config.get("include")), texts(site.config.get("exclude")))
    for path in found.files:
        is_include, is_layout = path.startswith("_includes/"), path.startswith("_layouts/")
        if not (is_include or is_layout) and rules.is_excluded(path):
            continue
        site.looked_at.append(path)
        part = read_part(folder, path, begun=not is_include and not is_layout)
        if part is None:
            continue
        if is_include or is_layout and not is_marked(part):
            site.plain[path] = part
        elif not path.startswith("_data/"):
            begun[path] = part
    add_items(site, begun, program)
    return site


def add_items(site: Site, begun: dict[str, str], program: str) -> None:
    """Adds those of the texts that have front matter, with its values."""
    heads = {path: match for path, match in ((path, front_matter(text)) for path, text in begun.items()) if match}
    values = read_values(program, {path: "---\n" + match[1] for path, match in heads.items()}).of
    for path, match in heads.items():
        site.items.append(Item(path, begun[path], mapping(values.get(path)), match.end()))


def read_part(folder: Path, path: str, begun: bool = False) -> Optional[str]:
    """The text of a file of the site, as much as a file may have; with `begun` nothing of one that does not begin as front matter does."""
    try:
        if begun:
            data = read_marked(os.path.join(folder, path), MOST_BYTES)
        else:
            with open_file(os.path.join(folder, path)) as file:
                data = file.read(MOST_BYTES)
    except OSError:
        return None
    return None if data is None else text_of(data)


def is_marked(text: str) -> bool:
    return text.removeprefix("\ufeff").startswith("---")
