"""The scopes of `defaults`: Jekyll takes a path for a pattern or the front of a path, the program for a file or a folder."""
from __future__ import annotations

from dataclasses import dataclass, field
from typing import Any, Optional

from adopting.globs import globs
from adopting.kept_back import ANY_NAME, names, shortened
from adopting.publication import is_published
from configuration import Hash, written

OLD_TYPES = {"post": "posts", "page": "pages", "draft": "drafts"}


class Tree:
    """The files and folders of a site, and which of them the scopes find that are patterns."""

    def __init__(self, files: list[str]):
        self.files = set(files)
        self.folders = {"/".join(steps[:count]) for steps in (path.split("/") for path in files) for count in range(1, len(steps))}
        self.found: dict[str, tuple[str, ...]] = {}

    def covers(self, scope: str, path: str) -> bool:
        """Whether Jekyll takes a scope to be for a path: it is the front of it, or it finds by a star what is."""
        if "*" not in scope:
            return path.startswith(scope)
        if scope not in self.found:
            self.found[scope] = tuple(name for name in self.files | self.folders if globs(scope, name, name in self.folders))
        steps = path.split("/")
        # A new file would be found too.
        return path.startswith(self.found[scope]) or any(globs(scope, "/".join(steps[:count]), count < len(steps)) for count in range(1, len(steps) + 1))


@dataclass(frozen=True)
class Difference:
    """What is read otherwise, and what is written in its place. `part` is in the line of the old text."""

    part: str
    otherwise: str
    now: str


@dataclass
class Mended:
    """Defaults that the program reads as Jekyll does the old ones, and how they differ from these."""

    defaults: list[object]
    differences: list[Difference] = field(default_factory=list)
    # Whether a value of `published` is no clear word.
    unclear: bool = False

    def tell(self, part: str, otherwise: str, now: str) -> None:
        self.differences.append(Difference(part, otherwise, now))


def mend(defaults: list[Any], files: list[str], types: list[str]) -> Mended:
    """`types` are the types that the site has, the names of its collections among them."""
    mended = Mended([])
    tree = Tree(files)
    for entry in defaults:
        if not isinstance(entry, dict) or not isinstance(entry.get("values"), dict):
            mended.tell("", "an entry of defaults has no values, and does nothing in Jekyll", "it is taken out")
            continue
        scope = entry.get("scope")
        if not isinstance(scope, dict):
            mended.tell("", "an entry of defaults has no scope, and is for all files in Jekyll", "its path is empty now")
            scope = {}
        mended.defaults += mend_entry(entry["values"], scope, tree, types, mended)
    return mended


def mend_entry(values: Hash, scope: Hash, tree: Tree, types: list[str], mended: Mended) -> list[Hash]:
    path, kind = scope.get("path"), scope.get("type")
    if not isinstance(path, str):
        mended.tell("scope", "a scope has no path, and is for all files in Jekyll", 'its path is "" now')
        path = ""
    if isinstance(kind, str) and kind in OLD_TYPES:
        mended.tell(f"type: {kind}", f"the type {kind} is an old name", f"it is {OLD_TYPES[kind]} now")
        kind = OLD_TYPES[kind]
    if "type" in scope and kind not in types or kind == "drafts" and any(one.startswith("_drafts/") for one in tree.files):
        mended.tell(f"{kind}", f"the type {kind} is for nothing in Jekyll", "its defaults are taken out")
        return []
    if "published" in values and kind == "pages":
        mended.tell("published", "published of defaults says nothing of pages in Jekyll", "it is taken out")
        values = {key: value for key, value in values.items() if key != "published"}
    elif "published" in values and not isinstance(values["published"], bool):
        values = {**values, "published": mend_published(values["published"], mended)}
    paths = paths_of(path, tree)
    if paths != [path]:
        what = "is a glob" if "*" in path else "is the front of a path in Jekyll"
        mended.tell(path, f'the scope "{path}" {what}', f"it names now: {shortened(paths)}; a new file of that kind has to be added")
    return [
        {"scope": {"path": one, **({"type": kind} if kind is not None else {})}, "values": values} for one in paths
    ]


def mend_published(value: object, mended: Mended) -> bool:
    """`published` of defaults as a truth value. What is no clear word is not published."""
    clear = is_published(value)
    if clear is None:
        mended.unclear = True
        mended.tell("published", "published is no clear word", "it is false now")
    else:
        what = "has no value" if value is None else f"is {value}"
        mended.tell("published", f"published {what}, which Jekyll takes for {written(clear)}", f"it is {written(clear)} now")
    return bool(clear)


def paths_of(scope: str, tree: Tree) -> list[str]:
    """The paths that the program takes for what Jekyll takes the scope for: the scope alone when it means the same."""
    if not scope:
        return [scope]
    wanted = [path for path in sorted(tree.files) if tree.covers(scope, path)]
    same = "*" not in scope and not scope.startswith("/")
    if same and all(names(scope, path) for path in wanted):
        return [scope]
    found = [scope] if same and any(names(scope, path) for path in wanted) else []
    for path in wanted:
        if any(names(one, path) for one in found):
            continue
        steps = path.split("/")
        folders = ("/".join(steps[:count]) for count in range(1, len(steps)))
        found.append(next((one for one in folders if tree.covers(scope, f"{one}/{ANY_NAME}")), path))
    return found


def published_by_defaults(defaults: list[Any], path: str, kind: Optional[str], tree: Tree) -> bool:
    """Whether Jekyll lets a copied file come out: its defaults say so, which do not reach it here. `path` is that of its address."""
    merged: Hash = {}
    before: Optional[Hash] = None
    for entry in defaults:
        if not isinstance(entry, dict) or not isinstance(entry.get("values"), dict):
            continue
        scope = entry["scope"] if isinstance(entry.get("scope"), dict) else {}
        if "type" in scope and type_of(scope) != kind or not tree.covers(path_of(scope), path):
            continue
        if before is None or comes_after(scope, before):
            merged, before = merge(merged, entry["values"]), scope
        else:
            merged = merge(entry["values"], merged)
    return bool(is_published(merged.get("published", True)))


def type_of(scope: Hash) -> object:
    """The type of a scope, by its present name."""
    kind = scope["type"]
    return OLD_TYPES.get(kind, kind) if isinstance(kind, str) else kind


def path_of(scope: Hash) -> str:
    path = scope.get("path")
    return path if isinstance(path, str) else ""


def comes_after(scope: Hash, before: Hash) -> bool:
    """Whether Jekyll lets this scope win over the one before."""
    if len(path_of(scope)) != len(path_of(before)):
        return len(path_of(scope)) > len(path_of(before))
    return "type" in scope or "type" not in before


def merge(under: Hash, over: Hash) -> Hash:
    """The values of both; what has no value hides nothing."""
    return {**under, **{key: value for key, value in over.items() if value is not None or key not in under}}
