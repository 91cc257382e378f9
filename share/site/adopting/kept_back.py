"""Which files Jekyll and the program let come out of a site, and settings of the program by which none comes out that Jekyll leaves out.

Jekyll takes an entry of `exclude` and `include` for a pattern and for the front of a path; the program takes it for the path of a file or of a folder.
"""
from __future__ import annotations

import posixpath
import re
from dataclasses import dataclass, field
from typing import Callable, Iterable, Optional

from adopting.globs import fits, is_glob
from configuration import CONFIG
from inside import OUTPUT
from site_files import ALWAYS_EXCLUDED, NotRead

SPECIAL = re.compile(r"[._#~]")
READ_FOLDERS = ("_layouts", "_includes", "_data")
DATED = re.compile(r"\d{4}-\d{2}-\d{2}-.+\.")
POST = re.compile(r"^(?:.+/)*?\d{2,4}-\d{1,2}-\d{1,2}-[^/]*\.[^.]+$")
DRAFT = re.compile(r"^.*\.[^.]+$")
SAID_PATHS = 6
# A name that no site has: what a pattern says of it holds for each new file.
ANY_NAME = "\u2400any"


def matches(entry: str, path: str, is_folder: bool) -> bool:
    """Whether an entry of Jekyll's lists names a path."""
    entry = "/" + entry.lstrip("/")
    path = "/" + path
    return fits(entry, path) or path.startswith(entry) or (is_folder and entry == path + "/")


def names(entry: str, path: str) -> bool:
    """Whether an entry of the program's lists names a path, or what is below it."""
    entry = entry[:-1] if entry.endswith("/") else entry
    return bool(entry) and (path == entry or path.startswith(entry + "/"))


@dataclass
class Rules:
    """The settings that say what comes out."""

    include: list[str] = field(default_factory=lambda: [".htaccess"])
    exclude: list[str] = field(default_factory=list)
    collections: list[str] = field(default_factory=list)
    # Those collections that have no output.
    hidden: list[str] = field(default_factory=list)
    destination: str = ""
    # `collections_dir`; empty when the collections were in such a folder, and are at the top now.
    collections_in: Optional[str] = None

    def has_posts(self, folder: str) -> bool:
        """Whether Jekyll reads the folder `_posts` of this folder."""
        if self.collections_in is None:
            return True
        return folder == "" if self.collections_in == "" else f"{folder}/".startswith(f"{self.collections_in}/")

    def folder_of(self, collection: str) -> str:
        return f"{self.collections_in}/_{collection}" if self.collections_in else f"_{collection}"


class Jekyll:
    """What Jekyll lets come out."""

    def __init__(self, rules: Rules, files: Iterable[str], held: Iterable[str] = ()):
        self.rules = rules
        self.files = set(files)
        # Those that are left out by a setting of another kind.
        self.held = set(held)
        self.folders: dict[str, list[str]] = {"": []}
        for path in sorted(self.files):
            self.add(path)
        always = [f"{entry}/" if entry.startswith("vendor/") else entry for entry in ALWAYS_EXCLUDED]
        # An entry that is in both lists is excluded no longer.
        self.excluded_entries = [entry for entry in rules.exclude + always if entry not in rules.include]

    def add(self, path: str) -> None:
        above = path.rpartition("/")[0]
        if above not in self.folders:
            self.folders[above] = []
            self.add(above)
        self.folders[above].append(path)

    def is_folder(self, path: str) -> bool:
        return path in self.folders

    def is_included(self, entry: str) -> bool:
        """`entry` is a path below the folder that is gone through."""
        last = entry.rpartition("/")[2]
        return any(matches(one, name, self.is_folder(name)) for one in self.rules.include for name in {entry, last})

    def is_excluded(self, path: str) -> bool:
        return any(matches(one, path, self.is_folder(path)) for one in self.excluded_entries)

    def takes(self, folder: str, entry: str) -> bool:
        if entry.endswith("."):
            return False
        included = self.is_included(entry)
        if self.is_excluded(f"{folder}/{entry}" if folder else entry) and not included:
            return False
        special = SPECIAL.match(entry) or SPECIAL.match(entry.rpartition("/")[2]) or entry.endswith("~")
        return included or not special

    def comes_out(self) -> set[str]:
        """All files that make an output without drafts, or could make one (documents of a collection that has none)."""
        found: set[str] = set()
        self.walk("", found)
        for collection in self.rules.collections:
            if collection != "posts":
                inner = self.below(self.rules.folder_of(collection), dots=True)
                # The program takes what is in a folder `_posts` for posts, which come out in any case.
                found.update(path for path in inner if collection not in self.rules.hidden or "_posts" not in path.split("/"))
        whole = (posixpath.normpath(entry.lstrip("/") or ".") for entry in self.rules.include)
        found.update(path for path in whole if path in self.files)
        return found - self.held

    def walk(self, folder: str, found: set[str]) -> None:
        if self.rules.has_posts(folder):
            posts = f"{folder}/_posts" if folder else "_posts"
            found.update(path for path in self.below(posts, dots=False) if POST.match(path[len(posts) + 1 :]))
        for path in self.folders[folder]:
            if not self.takes(folder, path.rpartition("/")[2]):
                continue
            if not self.is_folder(path):
                found.add(path)
            elif path != self.rules.destination:
                self.walk(path, found)

    def drafts(self) -> set[str]:
        """The drafts that the program would take for such: those at the top."""
        inner = self.below("_drafts", dots=False) if self.rules.has_posts("") else []
        return {path for path in inner if DRAFT.match(path[len("_drafts/") :])} - self.held

    def below(self, folder: str, dots: bool) -> list[str]:
        """The files below a folder that is read whole."""
        inner: list[str] = []
        left = [folder]
        while left:
            for path in self.folders.get(left.pop(), []):
                if dots or not path.rpartition("/")[2].startswith("."):
                    (left if self.is_folder(path) else inner).append(path)
        return [path for path in inner if self.takes(folder, path[len(folder) + 1 :])]


class Program:
    """What the program is likely to let come out. Lists are looked for by this guess; what comes of them is asked of the program itself (outcome.py)."""

    def __init__(self, include: list[str], exclude: list[str]):
        self.include = include
        self.exclude = exclude + ALWAYS_EXCLUDED

    def is_included(self, path: str) -> bool:
        return any(one in path.split("/") if "/" not in one else path == one or path.startswith(one + "/") for one in self.include)

    def is_excluded(self, path: str) -> bool:
        return any(names(one, path) for one in self.exclude) and not self.is_included(path)

    def comes_out(self, path: str, collections: list[str]) -> bool:
        """Whether a file makes an output, or could make one."""
        if path in (CONFIG, OUTPUT) or self.is_excluded(path):
            return False
        folders, name = path.split("/")[:-1], path.rpartition("/")[2]
        if folders and folders[0] in READ_FOLDERS and not self.is_included(path):
            return False
        if "_posts" in folders:
            if not DATED.match(name):
                return False
            folders = [folder for folder in folders if folder != "_posts"]
        elif folders and folders[0] == "_drafts":
            return self.is_included(path)
        if folders and folders[0] in [f"_{collection}" for collection in collections]:
            folders = folders[1:]
        return self.is_included(path) or not any(is_special(part) for part in [*folders, name])

    def is_draft(self, path: str) -> bool:
        """Whether a file is a draft, which comes out where drafts are built."""
        return path.startswith("_drafts/") and not self.is_excluded(path) and not any(is_special(part) for part in path.split("/")[1:])


def is_special(part: str) -> bool:
    return bool(SPECIAL.match(part)) or part.endswith("~")


def shortened(paths: list[str]) -> str:
    """The first paths, and how many more there are."""
    more = f" and {len(paths) - SAID_PATHS} more" if len(paths) > SAID_PATHS else ""
    return ", ".join(paths[:SAID_PATHS]) + more if paths else "nothing"


@dataclass(frozen=True)
class Replaced:
    """An entry of a list, and the paths that are there in its place."""

    entry: str
    paths: list[str]
    reason: str


@dataclass
class Lists:
    """The lists of the program by which exactly that comes out that Jekyll lets come out, as far as its rules reach."""

    include: list[str]
    exclude: list[str]
    replaced_includes: list[Replaced]
    replaced_excludes: list[Replaced]
    # Files that Jekyll leaves out and no entry names.
    added: list[str]
    # Entries of `include` for what Jekyll lets come out and no entry names.
    brought: list[str] = field(default_factory=list)


def lists_of_paths(rules: Rules, files: list[str], held: Iterable[str] = ()) -> Lists:
    """What the lists are for the program, for the files that are there now. `held` are files that Jekyll leaves out by other settings."""
    jekyll = Jekyll(rules, files, held)
    wanted = jekyll.comes_out()
    include = [entry for entry in rules.include if is_plain(entry) and brings_only(entry, wanted, files, rules.collections)]
    exclude = [entry for entry in rules.exclude if is_plain(entry.rstrip("/")) and entry.partition("/")[0] not in READ_FOLDERS]
    missing = missing_paths(Program(include, exclude), wanted, files, rules)
    added = collapse(leaking(jekyll, wanted, Program(include, exclude), files), jekyll, wanted)
    lists = Lists(include + missing, exclude + added, [], [], [])
    left = leaking(jekyll, wanted, Program(lists.include, lists.exclude), files)
    if left:
        raise NotRead(f"this would come out, and Jekyll leaves it out: {left[0]}")
    lists.replaced_includes = replaced(rules.include, include, missing, lambda entry, path: any(
        matches(entry, name, True) for name in [path, *path.split("/")]))
    lists.replaced_excludes = replaced(rules.exclude, exclude, added, lambda entry, path: any(
        matches(entry, name, jekyll.is_folder(name)) for name in (path, f"{path}/{ANY_NAME}")))
    named = {path for one in lists.replaced_excludes for path in one.paths}
    lists.added = [path for path in added if path not in named]
    included = {path for one in lists.replaced_includes for path in one.paths}
    lists.brought = [path for path in missing if path not in included]
    return lists


def leaks(rules: Rules, exclude: list[str], files: list[str]) -> list[str]:
    """What comes out by the lists as they are, and Jekyll leaves out."""
    jekyll = Jekyll(rules, files)
    wanted = jekyll.comes_out()
    program = Program(rules.include, exclude)
    found = leaking(jekyll, wanted, program, files)
    brought = [path for path in found if program.is_included(path)]
    return brought + collapse([path for path in found if path not in brought], jekyll, wanted)


def leaking(jekyll: Jekyll, wanted: set[str], program: Program, files: list[str]) -> list[str]:
    """The files that come out of the program and not of Jekyll, and those that do where drafts are built."""
    drafts = jekyll.drafts()
    return [
        path for path in files
        if path not in wanted and (program.comes_out(path, jekyll.rules.collections) or program.is_draft(path) and path not in drafts)
    ]


def is_plain(entry: str) -> bool:
    """Whether both read an entry as the path of a file or a folder."""
    return bool(entry) and not is_glob(entry) and not entry.startswith("/") and not entry.endswith("/") and "//" not in entry


def brings_only(entry: str, wanted: set[str], files: list[str], collections: list[str]) -> bool:
    """Whether the program brings in by this entry nothing that Jekyll leaves out."""
    program = Program([entry], [])
    return all(path in wanted for path in files if program.is_included(path) and program.comes_out(path, collections))


def missing_paths(program: Program, wanted: set[str], files: list[str], rules: Rules) -> list[str]:
    """Entries of `include` for what Jekyll lets come out and the program does not."""
    found: list[str] = []
    for path in files:
        below_drafts = "_drafts" in path.split("/")
        if path not in wanted or below_drafts or program.comes_out(path, rules.collections) or any(names(one, path) for one in found):
            continue
        parts = path.split("/")
        first = next((at for at, part in enumerate(parts) if is_special(part)), len(parts) - 1)
        entries = [one for one in ("/".join(parts[: first + 1]), path) if Program([one], program.exclude).comes_out(path, rules.collections)]
        # A folder of posts holds what is none.
        found += [one for one in entries if one != "_posts" and brings_only(one, wanted, files, rules.collections)][:1]
    return found


def collapse(paths: list[str], jekyll: Jekyll, wanted: set[str]) -> list[str]:
    """The same files by fewer entries: a folder when Jekyll leaves out each name below it."""
    found: list[str] = []
    for path in paths:
        if any(names(one, path) for one in found):
            continue
        parts = path.split("/")
        folders = ("/".join(parts[:count]) for count in range(1, len(parts)))
        whole = (folder for folder in folders if jekyll.is_excluded(f"{folder}/{ANY_NAME}"))
        folder = next((one for one in whole if not any(names(one, other) for other in wanted)), None)
        found.append(folder or path)
    return found


def replaced(entries: list[str], kept: list[str], paths: list[str], named_by: Callable[[str, str], bool]) -> list[Replaced]:
    """What became of each entry: nothing when it is kept and has no paths besides."""
    told: list[Replaced] = []
    for entry in entries:
        named = [path for path in paths if named_by(entry, path)]
        if entry in kept and named:
            told.append(Replaced(entry, named, "Jekyll takes it for the front of a path"))
        elif entry not in kept:
            told.append(Replaced(entry, named, "a glob" if is_glob(entry) else "the program reads it otherwise"))
    return told
