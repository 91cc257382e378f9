"""Finds the theme of a Jekyll site, and puts its files where the site has none of the name."""
from __future__ import annotations

import os
import re
from pathlib import Path
from typing import Optional

from inside import read_below
from session import MOST_BYTES
from site_files import list_files

# A name of a gem.
NAME = re.compile(r"[a-z0-9][a-z0-9_.-]*")
FOLDERS = ("_layouts", "_includes", "_sass", "assets", "_data")
# Where Debian and RubyGems put gems. A star stands for one name.
PLACES = (
    "vendor/bundle/ruby/*/gems",
    "~/.gem/ruby/*/gems",
    "~/.local/share/gem/ruby/*/gems",
    "~/.rbenv/versions/*/lib/ruby/gems/*/gems",
    "~/.rvm/gems/*/gems",
    "/var/lib/gems/*/gems",
    "/usr/local/lib/ruby/gems/*/gems",
    "/usr/local/bundle/gems",
    "/usr/lib/ruby/gems/*/gems",
    "/usr/share/rubygems-integration/*/gems",
)


def gem_folders(site: Path) -> list[Path]:
    """The folders that hold gems, those of the site first. A link in the site is passed over: it could lead to anything."""
    places = [os.path.join(site, os.path.expanduser(place)) for place in PLACES]
    for variable in ("GEM_HOME", "GEM_PATH"):
        places += [os.path.join(one, "gems") for one in os.environ.get(variable, "").split(":") if one]
    found = []
    for place in places:
        top, _, rest = place.partition("*")
        if not rest:
            found.append(Path(place))
        else:
            found += sorted(Path(top).glob("*" + rest)) if Path(top).is_dir() else []
    return [folder for folder in found if is_folder(folder, site)]


def is_folder(folder: Path, site: Path) -> bool:
    """Whether this is a folder, and no link of the site leads there."""
    return folder.is_dir() and (site not in folder.parents or folder.resolve() == folder)


def find_gem(name: str, site: Path, locked: str = "") -> Optional[Path]:
    """The folder of a gem: that of the version that is locked, else the newest; nothing when there is none, or this is no name of one."""
    name = name.strip().lower()
    if not NAME.fullmatch(name):
        return None
    found: list[tuple[list[int], Path]] = []
    for folder in gem_folders(site):
        for gem in folder.glob(f"{name}-*"):
            version = gem.name[len(name) + 1 :]
            if re.fullmatch(r"[0-9]+(\.[0-9A-Za-z]+)*", version) and is_folder(gem, site):
                if version == locked:
                    return gem
                found.append(([int(part) for part in re.findall(r"\d+", version)], gem))
    return max(found, key=lambda one: one[0])[1] if found else None


def locked_version(site: Path, name: str) -> str:
    """The version that Gemfile.lock of the site names."""
    try:
        text = read_below(site, "Gemfile.lock", MOST_BYTES).decode(errors="replace")
    except OSError:
        return ""
    match = re.search(rf"^    {re.escape(name)} \(([^)]+)\)$", text, re.M)
    return match[1] if match else ""


def missing_files(theme: Path, present: list[str]) -> list[str]:
    """The theme's files that go into the site. A layout is named without its extension."""
    layouts = {os.path.splitext(path)[0] for path in present if path.startswith("_layouts/")}
    taken = set(present)
    found = []
    for path in list_files(theme).files:
        if not path.startswith(tuple(f"{folder}/" for folder in FOLDERS)) or path in taken:
            continue
        if path.startswith("_layouts/") and os.path.splitext(path)[0] in layouts:
            continue
        found.append(path)
    return found
