"""`site adopt FOLDER`: makes a Jekyll site ready for the program, in a copy beside it, and says what was done and what is left."""
from __future__ import annotations

import glob
import tempfile
from pathlib import Path
from typing import Optional

from adopting.adoption import Adoption
from adopting.copying import copy_site
from adopting.dates import mend_dates
from adopting.files import (
    adopt_templates, adopt_theme, coming_out, mend_front_matter, read_configuration, write_archives, write_feeds, write_redirects, write_sitemap,
    write_styles,
)
from adopting.hidden import hide_texts
from adopting.placing import finish
from adopting.settings import adopt_configuration
from calling import NotDone
from configuration import CONFIG
from notes.first_faults import fault_lines
from notes.making import differences
from site_files import NotRead
from stopping import until_stopped
from words import Refused, a_folder, parser, shown


def main(arguments: list[str], program: str) -> int:
    of = parser("adopt")
    of.add_argument("folder", metavar="FOLDER", type=a_folder, help="the folder of the site")
    of.add_argument("--write", action="store_true", help="changes the site itself, and makes no copy")
    of.add_argument("--theme", metavar="FOLDER", type=a_folder, help="the folder of the site's theme")
    given = of.parse_args(arguments)
    folder = given.folder
    if not folder.name:
        raise Refused("a site is in a folder that has a name")
    beside = folder.parent / f"{folder.name}-adopted"
    tell_left_over(folder)
    with until_stopped():
        return make(folder, beside, given.write, given.theme, program)
    raise Refused("it was told to end before it was done; run it again")


def make(folder: Path, beside: Path, in_place: bool, theme: Optional[Path], program: str) -> int:
    """Adopts the site in a folder that is removed in the end, and puts what came of it in its place; the status."""
    try:
        # The copy that will stay is made where it will stay, so that it gets its name in one step.
        with tempfile.TemporaryDirectory(prefix=room_prefix(folder), dir=None if in_place else folder.parent) as room:
            adoption = Adoption(Path(room, "site"), program, folder)
            copy_site(adoption)
            adopt(adoption, theme)
            return finish(adoption, None if in_place else beside)
    except OSError as error:
        raise Refused(f"{shown(str(error.filename or folder))}: {error.strerror or error}") from error
    except (NotRead, NotDone) as error:
        raise Refused(str(error)) from error


def room_prefix(folder: Path) -> str:
    return f".{folder.name[:100]}-adopted."


def tell_left_over(folder: Path) -> None:
    """A run that was killed could not remove what it had made so far. Nothing but its name tells whose that is, so it stays."""
    for path in sorted(folder.parent.glob(f"{glob.escape(room_prefix(folder))}*")):
        print(f"left: {shown(str(path))}: a run that was killed has left it, or one that still goes on makes it; remove it when none does")


def adopt(adoption: Adoption, theme: Optional[Path]) -> None:
    """Does all that can be done. What must not come out is looked after first."""
    config = adopt_configuration(adoption)
    mend_front_matter(adoption)
    mend_dates(adoption, config)
    hide_texts(adoption, config)
    adopt_theme(adoption, config, theme)
    adopt_templates(adoption)
    write_feeds(adoption, config)
    write_sitemap(adoption, config)
    write_archives(adoption)
    write_redirects(adoption)
    write_styles(adoption)
    refuse_leaks(adoption)
    adoption.left_lines += fault_lines(adoption.folder, adoption.program)
    adoption.left_lines += differences(adoption.folder, adoption.program)


def refuse_leaks(adoption: Adoption) -> None:
    """Nothing is made of a site when a file would come out that Jekyll leaves out. The program is asked, after all changes were made."""
    _, config = read_configuration(adoption)
    leaks = sorted(coming_out(adoption, config, adoption.files()) & adoption.left_out)
    if leaks:
        raise Refused(
            f"{shown(leaks[0])}: it would come out, and Jekyll leaves it out{more(leaks)}; take it out of the folder, or write its path "
            f"into exclude of {CONFIG}, and run this again. Nothing was done"
        )


def more(paths: list[str]) -> str:
    return f" (and {len(paths) - 1} more)" if len(paths) > 1 else ""
