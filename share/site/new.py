"""`site new`: begins a site with what is in the folder `starter`."""
from __future__ import annotations

import os
from datetime import datetime, timezone
from pathlib import Path

import words
from inside import create_below

STARTER = Path(__file__).parent / "starter"
# In the name of a post this is the day on which the site begins.
TODAY = "TODAY"


def main(arguments: list[str], program: str) -> int:
    reader = words.parser("new")
    reader.add_argument("folder", type=Path, metavar="FOLDER", help="where the site is to be: a new folder, or an empty one")
    folder = reader.parse_args(arguments).folder
    refuse_what_is_there(folder)
    count = copy(folder)
    name = words.shown(os.fspath(folder))
    # On a command line, a dash in front would make it an option.
    name = f"./{name}" if name.startswith("-") else name
    print(f"{name}: a new site of {count} files")
    print(f"  look at it:  site serve {name}")
    print(f"  write:       in {name}/_posts")
    return 0


def refuse_what_is_there(folder: Path) -> None:
    """Nothing is ever written over, nor put among other files."""
    name = words.shown(os.fspath(folder))
    try:
        if next(os.scandir(folder), None):
            raise words.Refused(f"{name} is not empty; give a new folder")
    except FileNotFoundError:
        if folder.is_symlink():
            raise words.Refused(f"{name} is a link to nothing; give a new folder") from None
    except OSError as error:
        raise words.Refused(f"{name} cannot be a site: {error.strerror}") from error


def copy(folder: Path) -> int:
    """Copies the starter; how many files it has."""
    files = sorted(path for path in STARTER.rglob("*") if path.is_file())
    # The day in UTC, as the site's own clock has it: a post of a later day would be left out.
    today = datetime.now(timezone.utc).date().isoformat()
    for path in files:
        name = os.fspath(path.relative_to(STARTER).with_name(path.name.replace(TODAY, today)))
        try:
            folder.mkdir(parents=True, exist_ok=True)
            create_below(folder.resolve(), name, path.read_bytes())
        except OSError as error:
            raise words.Refused(f"{words.shown(os.fspath(folder / name))} cannot be written: {error.strerror}; the site is not whole") from error
    return len(files)
